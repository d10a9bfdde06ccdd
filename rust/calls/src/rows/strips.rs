//! The calls on stripes.

use super::cards::{large, most_k};
use super::{c1_of, card_then, set_faults, strip_len_faults, stripe_faults, ways};
use crate::cards::{any_card, any_loss, any_set, c1, disks_of, every_card};
use crate::choice::Choice;
use crate::editions::EDITIONS;
use crate::input::{code, Input, Told};
use crate::reference::{outline, strips, Edition};
use crate::stripes::{any_strip_len, any_stripe, any_stripe_len, lose, COMMON_LEN};
use crate::table::Row;
use bridgecrumb::ffi;

/// Up to so many disks every stripe is tried.
pub const DISKS: usize = 6;

/// An encoded stripe of C1 with strips of 3 bytes.
pub fn good_stripe(edition: Edition) -> Input {
    let content: Vec<u8> = (0..21).map(|t| t * 11).collect();
    let stripe = strips::encode(&c1(), 3, &content).expect("a stripe of C1");
    Input { card: c1_of(edition), strip_len: 3, stripe, ..Input::default() }
}

pub fn long(input: &Input) -> bool {
    let len = input.stripe.len().max(input.turned.len());
    (COMMON_LEN + 1..=65536).contains(&input.strip_len) && len > 32 * COMMON_LEN
}

pub const ENCODE: Row = Row {
    name: "encode",
    editions: &EDITIONS,
    any: |choice| {
        let card = any_card(choice, 16);
        let strip_len = any_strip_len(choice);
        // any bytes in the parity strips too: they are to be written
        let len = any_stripe_len(choice, disks_of(&card), strip_len);
        Input { stripe: choice.bytes(len), card, strip_len, ..Input::default() }
    },
    every: |n, choice, then| {
        for card in every_card(n.min(DISKS)).into_iter().filter(|_| n <= DISKS) {
            for strip_len in 1..=2 {
                for len in (0..3 * n).chain([n * strip_len; 8]) {
                    then(&Input { card: card.clone(), strip_len, stripe: choice.bytes(len), ..Input::default() });
                }
            }
        }
    },
    good: good_stripe,
    faults: |edition| card_then(edition, [strip_len_faults(), stripe_faults()]),
    heavy: long,
    engine: |input, lent| {
        let (second, card, card_len) = lent.card(&input.card);
        let (stripe, stripe_len) = lent.write(&input.stripe);
        // SAFETY: each buffer is as long as is said
        unsafe { ffi::bridgecrumb_encode(second, card, card_len, input.strip_len, stripe, stripe_len) }
    },
    safe: |input, lent| {
        let (edition, card) = lent.named_card(&input.card);
        code(bridgecrumb::encode(edition, card, input.strip_len, lent.slice_mut(&input.stripe)).map(|()| 0))
    },
    reference: |input| {
        let after = strips::encode(&input.card, input.strip_len, &input.stripe);
        Told::of(after.map(|stripe| (0, vec![stripe])))
    },
};

pub const REBUILD: Row = Row {
    name: "rebuild",
    editions: &EDITIONS,
    any: |choice| {
        let card = any_card(choice, most_k(choice));
        let strip_len = any_strip_len(choice);
        let set = any_set(choice, &card);
        Input { stripe: any_stripe(choice, &card, strip_len, set), card, strip_len, set, ..Input::default() }
    },
    every: every_rebuild,
    good: |edition| Input { set: 1, ..good_stripe(edition) },
    faults: |edition| {
        let fatal = ways(11, vec![14, 0x7f], |input, &set| input.set = set);
        let spoiled = ways(12, vec![9, 20], |input, &at: &usize| input.stripe[at] ^= 1);
        card_then(edition, [strip_len_faults(), set_faults(), stripe_faults(), fatal, spoiled])
    },
    heavy: |input| large(&input.card) || long(input),
    engine: |input, lent| {
        let (second, card, card_len) = lent.card(&input.card);
        let (stripe, stripe_len) = lent.write(&input.stripe);
        // SAFETY: each buffer is as long as is said
        unsafe { ffi::bridgecrumb_rebuild(second, card, card_len, input.strip_len, input.set, stripe, stripe_len) }
    },
    safe: |input, lent| {
        let (edition, card) = lent.named_card(&input.card);
        code(bridgecrumb::rebuild(edition, card, input.strip_len, input.set, lent.slice_mut(&input.stripe)))
    },
    reference: |input| {
        let after = strips::rebuild(&input.card, input.strip_len, input.set, &input.stripe);
        Told::of(after.map(|(restored, stripe)| (restored, vec![stripe])))
    },
};

pub const PARTIAL_REBUILD: Row = Row {
    name: "partial_rebuild",
    editions: &EDITIONS,
    any: |choice| {
        let card = any_card(choice, most_k(choice));
        let strip_len = any_strip_len(choice);
        let set = any_loss(choice, &card);
        Input { stripe: any_stripe(choice, &card, strip_len, set), card, strip_len, set, ..Input::default() }
    },
    every: every_rebuild,
    good: |edition| {
        // disk 0 is restored and disks 1 to 3 are not; it has other bytes, so that a call that restores before it refuses is seen
        let mut good = Input { set: 15, ..good_stripe(edition) };
        good.stripe[..3].iter_mut().for_each(|byte| *byte ^= 0x5a);
        good
    },
    faults: |edition| {
        // of losses that are not fatal and of fatal ones
        let spoiled = ways(12, vec![(1, 9), (1, 20), (37, 9), (37, 20)], |input, &(set, at): &(u32, usize)| {
            input.set = set;
            input.stripe[at] ^= 1;
        });
        card_then(edition, [strip_len_faults(), set_faults(), stripe_faults(), spoiled])
    },
    heavy: |input| large(&input.card) || long(input),
    engine: |input, lent| {
        let (second, card, card_len) = lent.card(&input.card);
        let (stripe, stripe_len) = lent.write(&input.stripe);
        // SAFETY: each buffer is as long as is said
        unsafe {
            ffi::bridgecrumb_partial_rebuild(second, card, card_len, input.strip_len, input.set, stripe, stripe_len)
        }
    },
    safe: |input, lent| {
        let ((edition, card), stripe) = (lent.named_card(&input.card), lent.slice_mut(&input.stripe));
        let left = bridgecrumb::partial_rebuild(edition, card, input.strip_len, input.set, stripe);
        code(left.map(|set| set as usize))
    },
    reference: |input| {
        let after = strips::partial_rebuild(&input.card, input.strip_len, input.set, &input.stripe);
        Told::of(after.map(|(undetermined, stripe)| (undetermined as usize, vec![stripe])))
    },
};

/// Every loss of a stripe as it was encoded, with each byte spoiled in each bit and otherwise, and with a bit of each set of disks spoiled at
/// one place; each disk that the code lacks; stripes of other lengths.
fn every_rebuild(n: usize, choice: &mut Choice, then: &mut dyn FnMut(&Input)) {
    for card in every_card(n.min(DISKS)).into_iter().filter(|_| n <= DISKS) {
        for strip_len in 1..=2 {
            for set in 0..1 << n {
                let mut stripe =
                    strips::encoded(&outline(&card).expect("a code"), strip_len, &choice.bytes(n * strip_len));
                lose(choice, set, strip_len, &mut stripe);
                let mut input = Input { card: card.clone(), strip_len, set, stripe, ..Input::default() };
                every_spoiled(n, choice, &mut input, then);
                for disk in n..32 {
                    input.set = set | 1 << disk;
                    then(&input);
                }
            }
            for len in 0..3 * n {
                then(&Input { card: card.clone(), strip_len, set: 1, stripe: choice.bytes(len), ..Input::default() });
            }
        }
    }
}

fn every_spoiled(n: usize, choice: &mut Choice, input: &mut Input, then: &mut dyn FnMut(&Input)) {
    then(input);
    for at in 0..input.stripe.len() {
        let before = input.stripe[at];
        for change in (0..8).map(|bit| 1 << bit).chain([1 + choice.below(255) as u8]) {
            input.stripe[at] = before ^ change;
            then(input);
        }
        input.stripe[at] = before;
    }
    let before = input.stripe.clone();
    for disks in 0..1 << n {
        let (t, bit) = (choice.below(input.strip_len), choice.below(8));
        for disk in 0..n {
            input.stripe[disk * input.strip_len + t] ^= ((disks >> disk & 1) as u8) << bit;
        }
        then(input);
        input.stripe.clone_from(&before);
    }
}
