//! The calls that make a card of one edition into one of the other.

use super::{c1_of, card_then, ways};
use crate::cards::{any_card, any_first_card, disks_of, every_card};
use crate::choice::Choice;
use crate::editions::{any_wears, with_wears, worn};
use crate::input::{code, Input, Told};
use crate::reference::{cards, Card, Edition};
use crate::table::Row;
use bridgecrumb::ffi;

fn of_card(card: Card, out_len: usize) -> Input {
    Input { card, out_len, ..Input::default() }
}

/// Of a card of either edition, how long it is in edition 1 and in edition 2.
fn lens(card: &Card) -> (usize, usize) {
    let first = card.code_bytes().len();
    (first, 1 + first + disks_of(card))
}

/// A card of either edition is given to a converter that takes it for one of its own.
pub const UP: Row = Row {
    name: "card_up",
    editions: &[Edition::First],
    any: |choice| {
        let card = if choice.one_in(8) { any_card(choice, 16) } else { any_first_card(choice, 16) };
        let out_len = choice.length(lens(&card).1);
        of_card(card, out_len)
    },
    every: |n, choice, then| {
        for card in every_card(n) {
            (0..lens(&card).1 + 3).for_each(|out_len| then(&of_card(card.clone(), out_len)));
            then(&of_card(worn(choice, &card), lens(&card).1));
        }
    },
    good: |_| of_card(c1_of(Edition::First), 16),
    faults: |_| {
        let other_len = ways(7, vec![0, 8, 15, 17, 16 + 256], |input, &len| input.out_len = len);
        card_then(Edition::First, [other_len])
    },
    heavy: |_| false,
    engine: |input, lent| {
        let (card, card_len) = lent.read(&input.card);
        let (out, out_len) = lent.output(input.out_len);
        // SAFETY: each buffer is as long as is said
        unsafe { ffi::bridgecrumb_card_up(card, card_len, out, out_len) }
    },
    safe: |input, lent| {
        code(bridgecrumb::card_up(lent.slice(&input.card), lent.output_slice(input.out_len)).map(|()| 0))
    },
    reference: |input| Told::of(cards::up(&input.card, input.out_len).map(|card| (0, vec![card]))),
};

pub const DOWN: Row = Row {
    name: "card_down",
    editions: &[Edition::Second],
    any: any_down,
    every: every_down,
    good: |_| of_card(with_wears(&c1_of(Edition::First), &[1; 7]), 8),
    faults: |_| {
        let other_len = ways(7, vec![0, 7, 9, 16, 8 + 256], |input, &len| input.out_len = len);
        let lossy = ways(24, vec![(9, 2), (15, 255), (12, 128)], |input, &(at, wear): &(usize, u8)| {
            input.card[at] = wear;
        });
        card_then(Edition::Second, [other_len, lossy])
    },
    heavy: |_| false,
    engine: |input, lent| {
        let (card, card_len) = lent.read(&input.card);
        let (out, out_len) = lent.output(input.out_len);
        // SAFETY: each buffer is as long as is said
        unsafe { ffi::bridgecrumb_card_down(card, card_len, out, out_len) }
    },
    safe: |input, lent| {
        code(bridgecrumb::card_down(lent.slice(&input.card), lent.output_slice(input.out_len)).map(|()| 0))
    },
    reference: |input| Told::of(cards::down(&input.card, input.out_len).map(|card| (0, vec![card]))),
};

/// About half with every wear 1.
fn any_down(choice: &mut Choice) -> Input {
    let card = if choice.one_in(2) {
        any_card(choice, 16)
    } else {
        let first = any_first_card(choice, 16);
        let n = disks_of(&first);
        with_wears(&first, &vec![1; n])
    };
    let out_len = choice.length(lens(&card).0);
    of_card(card, out_len)
}

/// Every card with every wear 1 and each length of the buffer, with each wear 0 or not 1, alone and beside others, and the card of edition 1; of no
/// disks, each first byte.
fn every_down(n: usize, choice: &mut Choice, then: &mut dyn FnMut(&Input)) {
    for first in every_card(n) {
        let len = first.len();
        let ones = with_wears(&first, &vec![1; n]);
        (0..len + 3).for_each(|out_len| then(&of_card(ones.clone(), out_len)));
        let any = with_wears(&first, &any_wears(choice, n));
        for (card, disk) in [&ones, &any].into_iter().flat_map(|card| (0..n).map(move |disk| (card, disk))) {
            for wear in [0, 2, 255] {
                let mut card = card.clone();
                card[1 + len + disk] = wear;
                then(&of_card(card.clone(), len));
                then(&of_card(card, len + 1));
            }
        }
        then(&of_card(first, len));
    }
    if n == 0 {
        for byte in 0..=255 {
            let mut card = c1_of(Edition::Second);
            card[0] = byte;
            (0..=card.len()).for_each(|card_len| then(&of_card(Card::second(card[..card_len].to_vec()), 8)));
        }
    }
}
