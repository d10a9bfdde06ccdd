//! The call for the equation of least wear.

use super::cards::{large, many_parities, most_k};
use super::{c1_of, card_then, disk_faults, set_faults, ways};
use crate::cards::{any_card, any_disk, any_loss, disks_of, every_card};
use crate::choice::Choice;
use crate::editions::{worn, EDITIONS};
use crate::input::{code, Input, Told};
use crate::reference::{wear, Card};
use crate::table::Row;
use bridgecrumb::ffi;

pub const LEAST_WEAR: Row = Row {
    name: "least_wear",
    editions: &EDITIONS,
    any: |choice| {
        let card = any_card(choice, most_k(choice));
        let disk = any_disk(choice, disks_of(&card));
        let set = any_loss(choice, &card) | if choice.one_in(3) && disk < 32 { 1 << disk } else { 0 };
        Input { card, disk, set, ..Input::default() }
    },
    every: every_loss,
    good: |edition| Input { card: c1_of(edition), set: 4, ..Input::default() },
    faults: |edition| {
        // each of disk 0's four equations has disk 1 or 6, 2 or 5, 3 or 4
        let none_left = ways(11, vec![0x42, 0x24, 0x18, 0x7e, 0x7f], |input, &set| input.set = set);
        card_then(edition, [set_faults(), disk_faults(), none_left])
    },
    heavy: |input| large(&input.card) || many_parities(&input.card),
    engine: |input, lent| {
        let (second, card, card_len) = lent.card(&input.card);
        // SAFETY: the card is as long as is said
        unsafe { ffi::bridgecrumb_least_wear(second, card, card_len, input.disk, input.set) }
    },
    safe: |input, lent| {
        let (edition, card) = lent.named_card(&input.card);
        code(bridgecrumb::least_wear(edition, card, input.disk, input.set).map(|equation| equation as usize))
    },
    reference: |input| {
        let equation = wear::least_wear(&input.card, input.disk, input.set);
        Told::of(equation.map(|equation| (equation as usize, Vec::new())))
    },
};

/// Up to so many disks every loss is tried, of more disks some.
const DISKS: usize = 6;

/// Every disk, and some that the code lacks, with every loss, the disk named as lost or not, and with each disk that the code lacks; in edition 1,
/// and in edition 2 with other wears for each disk.
fn every_loss(n: usize, choice: &mut Choice, then: &mut dyn FnMut(&Input)) {
    for first in every_card(n) {
        for disk in (0..n + 1).chain([usize::MAX]) {
            let second = worn(choice, &first);
            for card in [first.clone(), second] {
                let mut input = Input { card, disk, ..Input::default() };
                for set in losses(n, choice, &input.card) {
                    input.set = set;
                    then(&input);
                }
            }
        }
    }
}

fn losses(n: usize, choice: &mut Choice, card: &Card) -> Vec<u32> {
    let outside = 1 << (n + choice.below(32 - n));
    if n <= DISKS {
        (0..1 << n).chain([outside, u32::MAX]).collect()
    } else {
        (0..6).map(|_| any_loss(choice, card)).chain([0, outside]).collect()
    }
}
