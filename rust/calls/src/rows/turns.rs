//! The calls on turned stripes. One turns `stripe` into the buffer `turned`, one turns `turned` back into the buffer `stripe`, and the third rebuilds `turned`.

use super::cards::{large, most_k};
use super::strips::{good_stripe, long, DISKS};
use super::{card_then, outside_sets, strip_len_faults, ways};
use crate::cards::{any_card, any_set, disks_of, every_card};
use crate::choice::Choice;
use crate::editions::EDITIONS;
use crate::input::{code, Input, Told};
use crate::reference::turns::{lost_slots, rebuild_turned, turn, turn_back, turned};
use crate::reference::{outline, strips, Edition};
use crate::stripes::{any_strip_len, any_stripe, any_stripe_len, lose};
use crate::table::{Fault, Row};
use bridgecrumb::ffi;

/// Numbers at which one of fewer bits ends.
const EDGES: [u32; 11] =
    [255, 256, 257, 65_535, 65_536, 65_537, (1 << 31) - 1, 1 << 31, (1 << 31) + 1, u32::MAX - 1, u32::MAX];

/// The number of a stripe: a small one, one at an edge or less than n before the last, or any.
pub fn any_r(choice: &mut Choice, n: usize) -> u32 {
    match choice.below(8) {
        0..=2 => choice.below(2 * n) as u32,
        3 => choice.pick(&EDGES),
        4 => u32::MAX - choice.below(n) as u32,
        _ => choice.number() as u32,
    }
}

/// Stripe 5 of C1, encoded and turned, with strips of 3 bytes.
fn good_turn(edition: Edition) -> Input {
    let good = good_stripe(edition);
    Input { r: 5, turned: turned(7, 3, 5, &good.stripe), ..good }
}

/// Refusal 7, of either buffer and of both, which then are of equal lengths or as long together as they should be.
fn buffer_faults() -> Vec<Fault> {
    let wrong = vec![(-1, 0), (256, 0), (0, -21), (0, 1), (-1, -1), (3, -3), (-3, 3)];
    ways(7, wrong, |input, &(more, more_turned): &(isize, isize)| {
        input.stripe.resize((21 + more) as usize, 0x5a);
        input.turned.resize((21 + more_turned) as usize, 0x5a);
    })
}

/// A stripe and a turned one, each of any bytes and mostly of the right length; half of the time both have the same, right or wrong.
fn any_turn(choice: &mut Choice) -> Input {
    let card = any_card(choice, 16);
    let strip_len = any_strip_len(choice);
    let n = disks_of(&card);
    let r = any_r(choice, n);
    let len = any_stripe_len(choice, n, strip_len);
    let turned_len = if choice.one_in(2) { len } else { any_stripe_len(choice, n, strip_len) };
    Input { stripe: choice.bytes(len), turned: choice.bytes(turned_len), card, strip_len, r, ..Input::default() }
}

/// Every r below 2n and at the edges; every two lengths of up to 2n + 1 bytes.
fn every_turn(n: usize, choice: &mut Choice, then: &mut dyn FnMut(&Input)) {
    for card in every_card(n.min(DISKS)).into_iter().filter(|_| n <= DISKS) {
        for strip_len in 1..=2 {
            let last = (0..n as u32).map(|less| u32::MAX - less);
            for r in (0..2 * n as u32).chain(EDGES).chain(last) {
                let (stripe, turned) = (choice.bytes(n * strip_len), choice.bytes(n * strip_len));
                then(&Input { card: card.clone(), strip_len, r, stripe, turned, ..Input::default() });
            }
            for (len, turned_len) in (0..2 * n + 2).flat_map(|len| (0..2 * n + 2).map(move |other| (len, other))) {
                let (stripe, turned) = (choice.bytes(len), choice.bytes(turned_len));
                then(&Input { card: card.clone(), strip_len, r: 1, stripe, turned, ..Input::default() });
            }
        }
    }
}

pub const TURN: Row = Row {
    name: "turn",
    editions: &EDITIONS,
    any: any_turn,
    every: every_turn,
    good: |edition| Input { turned: vec![0x5a; 21], ..good_turn(edition) },
    faults: |edition| card_then(edition, [strip_len_faults(), buffer_faults()]),
    heavy: long,
    engine: |input, lent| {
        let (second, card, card_len) = lent.card(&input.card);
        let (stripe, stripe_len) = lent.read(&input.stripe);
        let (out, out_len) = lent.write(&input.turned);
        let (strip_len, r) = (input.strip_len, input.r);
        // SAFETY: each buffer is as long as is said
        unsafe { ffi::bridgecrumb_turn(second, card, card_len, strip_len, r, stripe, stripe_len, out, out_len) }
    },
    safe: |input, lent| {
        let ((edition, card), stripe) = (lent.named_card(&input.card), lent.slice(&input.stripe));
        let out = lent.slice_mut(&input.turned);
        code(bridgecrumb::turn(edition, card, input.strip_len, input.r, stripe, out).map(|()| 0))
    },
    reference: |input| {
        let after = turn(&input.card, input.strip_len, input.r, &input.stripe, input.turned.len());
        Told::of(after.map(|turned| (0, vec![turned])))
    },
};

pub const TURN_BACK: Row = Row {
    name: "turn_back",
    editions: &EDITIONS,
    any: any_turn,
    every: every_turn,
    good: |edition| Input { stripe: vec![0x5a; 21], ..good_turn(edition) },
    faults: |edition| card_then(edition, [strip_len_faults(), buffer_faults()]),
    heavy: long,
    engine: |input, lent| {
        let (second, card, card_len) = lent.card(&input.card);
        let (turned, turned_len) = lent.read(&input.turned);
        let (out, out_len) = lent.write(&input.stripe);
        let (strip_len, r) = (input.strip_len, input.r);
        // SAFETY: each buffer is as long as is said
        unsafe { ffi::bridgecrumb_turn_back(second, card, card_len, strip_len, r, turned, turned_len, out, out_len) }
    },
    safe: |input, lent| {
        let ((edition, card), turned) = (lent.named_card(&input.card), lent.slice(&input.turned));
        let out = lent.slice_mut(&input.stripe);
        code(bridgecrumb::turn_back(edition, card, input.strip_len, input.r, turned, out).map(|()| 0))
    },
    reference: |input| {
        let after = turn_back(&input.card, input.strip_len, input.r, &input.turned, input.stripe.len());
        Told::of(after.map(|stripe| (0, vec![stripe])))
    },
};

pub const REBUILD_TURNED: Row = Row {
    name: "rebuild_turned",
    editions: &EDITIONS,
    any: |choice| {
        let card = any_card(choice, most_k(choice));
        let (strip_len, n) = (any_strip_len(choice), disks_of(&card));
        let (r, lost) = (any_r(choice, n), any_set(choice, &card));
        let stripe = any_stripe(choice, &card, strip_len, lost);
        // slots that the code lacks stay as they are
        let slots = lost_slots(n, r, lost) | (u64::from(lost) >> n << n) as u32;
        let turned =
            if n.checked_mul(strip_len) == Some(stripe.len()) { turned(n, strip_len, r, &stripe) } else { stripe };
        Input { card, strip_len, r, slots, turned, ..Input::default() }
    },
    every: every_rebuild,
    // disks 0 and 2, which have other bytes, so that a call that restores before it refuses is seen
    good: |edition| {
        let mut good = Input { slots: 1 << 5 | 1, ..good_turn(edition) };
        [0, 2, 15, 17].iter().for_each(|&at| good.turned[at] ^= 0x5a);
        good
    },
    faults: |edition| {
        let outside = ways(8, outside_sets(), |input, &slots: &u32| input.slots |= slots);
        let lens = ways(7, vec![-1, 1, -21, 256], |input, &more: &isize| {
            input.turned.resize((21 + more) as usize, 0);
        });
        // disks 1 to 3 are in slots 6, 0 and 1
        let fatal = ways(11, vec![0x43, 0x7f], |input, &slots| input.slots = slots);
        // bytes of disks 3 and 6 with disk 0 lost, in slots 1, 4 and 5
        let spoiled = ways(12, vec![3, 14], |input, &at: &usize| {
            input.slots = 1 << 5;
            input.turned = turned(7, 3, 5, &good_stripe(Edition::First).stripe);
            input.turned[at] ^= 1;
        });
        card_then(edition, [strip_len_faults(), outside, lens, fatal, spoiled])
    },
    heavy: |input| large(&input.card) || long(input),
    engine: |input, lent| {
        let (second, card, card_len) = lent.card(&input.card);
        let (stripe, stripe_len) = lent.write(&input.turned);
        let (strip_len, r, slots) = (input.strip_len, input.r, input.slots);
        // SAFETY: each buffer is as long as is said
        unsafe { ffi::bridgecrumb_rebuild_turned(second, card, card_len, strip_len, r, slots, stripe, stripe_len) }
    },
    safe: |input, lent| {
        let ((edition, card), stripe) = (lent.named_card(&input.card), lent.slice_mut(&input.turned));
        code(bridgecrumb::rebuild_turned(edition, card, input.strip_len, input.r, input.slots, stripe))
    },
    reference: |input| {
        let after = rebuild_turned(&input.card, input.strip_len, input.r, input.slots, &input.turned);
        Told::of(after.map(|(restored, stripe)| (restored, vec![stripe])))
    },
};

/// For each r below n every set of slots of a stripe as it was encoded and turned, and with each byte spoiled; each slot that the code lacks; stripes of
/// other lengths.
fn every_rebuild(n: usize, choice: &mut Choice, then: &mut dyn FnMut(&Input)) {
    for card in every_card(n.min(DISKS)).into_iter().filter(|_| n <= DISKS) {
        let code = outline(&card).expect("a code");
        for (r, lost) in (0..n as u32).flat_map(|r| (0..1 << n).map(move |lost| (r, lost))) {
            let strip_len = 1 + choice.below(2);
            let mut stripe = strips::encoded(&code, strip_len, &choice.bytes(n * strip_len));
            lose(choice, lost, strip_len, &mut stripe);
            let (slots, turned) = (lost_slots(n, r, lost), turned(n, strip_len, r, &stripe));
            // another stripe of the cabinet that is turned alike
            let r = r + n as u32 * choice.pick(&[0, 0, 1, 1000]);
            let mut input = Input { card: card.clone(), strip_len, r, slots, turned, ..Input::default() };
            then(&input);
            for at in 0..n * strip_len {
                let change = 1 << choice.below(8);
                input.turned[at] ^= change;
                then(&input);
                input.turned[at] ^= change;
            }
            input.slots = slots | 1 << (n + choice.below(32 - n));
            then(&input);
        }
        for len in 0..3 * n {
            let turned = choice.bytes(len);
            then(&Input { card: card.clone(), strip_len: 2, r: 1, slots: 1, turned, ..Input::default() });
        }
    }
}
