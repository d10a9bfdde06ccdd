//! The calls on trays of stripes.

use super::strips::{good_stripe, long};
use super::{card_then, length_faults, strip_len_faults, ways};
use crate::cards::{any_card, any_set, disks_of, every_card};
use crate::choice::Choice;
use crate::editions::EDITIONS;
use crate::input::{bytes_of, code, Input, Told};
use crate::reference::{outline, strips, trays};
use crate::stripes::{any_strip_len, lose, stripe_of};
use crate::table::Row;
use bridgecrumb::ffi;

pub const QUICK_REPAIR: Row = Row {
    name: "quick_repair",
    editions: &EDITIONS,
    any: any_tray,
    every: every_tray,
    good: |edition| {
        // what is lost has other bytes, so that a call that mends before it refuses is seen
        let stripe = good_stripe(edition);
        let mut tray = stripe.stripe.repeat(3);
        [0, 3, 42, 54, 57].iter().for_each(|&at| tray[at] ^= 0x5a);
        Input { sets: vec![3, 0, 49], budget: 5, stripe: tray, ..stripe }
    },
    faults: |edition| {
        let counts = ways(17, vec![0, 9, 256 + 3], |input, &count| input.sets.resize(count, 1));
        let wrong: Vec<(usize, u32)> = vec![(2, 1 << 7), (2, 1 << 31), (0, !0)];
        let outside = ways(8, wrong, |input, &(at, disks)| input.sets[at] |= disks);
        card_then(edition, [strip_len_faults(), counts, outside, length_faults(vec![-1, 1, -21, 21, -63])])
    },
    heavy: long,
    engine: |input, lent| {
        let (second, card, card_len) = lent.card(&input.card);
        let (sets, count) = lent.read(&input.sets);
        let (tray, tray_len) = lent.write(&input.stripe);
        let (left, _) = lent.output(8);
        let (strip_len, budget) = (input.strip_len, input.budget);
        // SAFETY: each buffer is as long as is said
        unsafe {
            ffi::bridgecrumb_quick_repair(second, card, card_len, strip_len, sets, count, budget, tray, tray_len, left)
        }
    },
    safe: |input, lent| {
        let ((edition, card), sets) = (lent.named_card(&input.card), lent.slice(&input.sets));
        let (tray, left) = (lent.slice_mut(&input.stripe), lent.output_slice(8));
        code(bridgecrumb::quick_repair(edition, card, input.strip_len, sets, input.budget, tray).map(|repair| {
            left.copy_from_slice(&repair.left);
            repair.steps
        }))
    },
    reference: |input| {
        let told = trays::quick_repair(&input.card, input.strip_len, &input.sets, input.budget, &input.stripe);
        Told::of(told.map(|(steps, left, tray)| (steps, vec![tray, bytes_of(&left, u32::to_le_bytes)])))
    },
};

/// Stripes that are encoded, spoiled or any bytes, mostly 1 to 8 of them, and a budget that is often too small.
fn any_tray(choice: &mut Choice) -> Input {
    let card = any_card(choice, 16);
    let strip_len = any_strip_len(choice);
    let width = disks_of(&card).saturating_mul(strip_len);
    let count = match choice.below(16) {
        0 => choice.pick(&[0, 9, 10, 256 + 3]),
        _ => (1 + choice.below(8)).min((1 << 20) / width.clamp(1, 1 << 20)),
    };
    let sets: Vec<u32> = (0..count).map(|_| any_set(choice, &card)).collect();
    let budget = match choice.below(4) {
        0 => choice.below(12),
        1 => choice.far_number(),
        _ => usize::MAX,
    };
    let right = count.saturating_mul(width);
    let len = match choice.strip_len {
        Some(_) => right.min(1 << 21),
        None if strip_len > 65536 => choice.pick(&[0, count, 64]),
        None => choice.length(right.min(1 << 20)),
    };
    let stripe = match outline(&card) {
        Ok(code) if (1..=65536).contains(&strip_len) && len == right => {
            sets.iter().flat_map(|&set| stripe_of(choice, &code, strip_len, set)).collect()
        }
        _ => choice.bytes(len),
    };
    Input { card, strip_len, sets, budget, stripe, ..Input::default() }
}

/// Every loss of one stripe of up to 6 disks with every budget, and every two losses of up to 4.
fn every_tray(n: usize, choice: &mut Choice, then: &mut dyn FnMut(&Input)) {
    for card in every_card(n.min(6)).into_iter().filter(|_| n <= 6) {
        let code = outline(&card).expect("a code");
        for first in 0..1 << n {
            let seconds = if n <= 4 { 0..1 << n } else { 0..1 };
            for second in seconds {
                let sets = if n <= 4 { vec![first, second] } else { vec![first] };
                let mut stripe = Vec::new();
                for &set in &sets {
                    let start = stripe.len();
                    stripe.extend(strips::encoded(&code, 2, &choice.bytes(2 * n)));
                    lose(choice, set, 2, &mut stripe[start..]);
                }
                // survivors of a content, and of none, where the bytes tell which check was taken
                let any = choice.bytes(stripe.len());
                for stripe in [stripe, any] {
                    let (card, sets) = (card.clone(), sets.clone());
                    let mut input = Input { card, strip_len: 2, sets, stripe, ..Input::default() };
                    for budget in 0..n + 3 {
                        input.budget = budget;
                        then(&input);
                    }
                }
            }
        }
    }
}
