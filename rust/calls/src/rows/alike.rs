//! The call on two cards.

use super::{c1_of, card_faults, card_then};
use crate::cards::{any_card, card_of, every_card, repeated_columns};
use crate::choice::Choice;
use crate::editions::{of_any_edition, EDITIONS};
use crate::input::{code, Input, Told};
use crate::reference::{self, Card, Edition, Said};
use crate::table::Row;
use bridgecrumb::ffi;

/// The other one of two.
fn other_edition(edition: Edition) -> Edition {
    match edition {
        Edition::First => Edition::Second,
        Edition::Second => Edition::First,
    }
}

pub const ALIKE: Row = Row {
    name: "alike",
    editions: &EDITIONS,
    any: any_two,
    every: every_two,
    good: |edition| Input { card: c1_of(edition), other: c1_of(other_edition(edition)), ..Input::default() },
    faults: |edition| card_then(edition, card_faults(other_edition(edition), |input| &mut input.other)),
    heavy: |_| false,
    engine: |input, lent| {
        let (second, card, card_len) = lent.card(&input.card);
        let (other_second, other, other_len) = lent.card(&input.other);
        // SAFETY: each buffer is as long as is said
        unsafe { ffi::bridgecrumb_alike(second, card, card_len, other_second, other, other_len) }
    },
    safe: |input, lent| {
        let (edition, card) = lent.named_card(&input.card);
        let (other_edition, other) = lent.named_card(&input.other);
        code(bridgecrumb::alike(edition, card, other_edition, other).map(usize::from))
    },
    reference: |input| Told::of(reference::alike(&input.card, &input.other).map(|alike| (alike.into(), Vec::new()))),
};

/// Any card, or one whose columns repeat, and mostly another one that is made of it.
fn any_two(choice: &mut Choice) -> Input {
    let card = if choice.one_in(3) {
        let (k, m) = (1 + choice.below(16), 1 + choice.below(16));
        let card = card_of(k, m, &repeated_columns(choice, k, m));
        of_any_edition(choice, card)
    } else {
        any_card(choice, 16)
    };
    let other = if choice.one_in(6) { any_card(choice, 16) } else { other(choice, &card) };
    Input { card, other, ..Input::default() }
}

/// The first card's columns, mostly in another order, which is alike; or changed after that, and then mostly not alike. Any card where the first
/// is refused. Of either edition.
fn other(choice: &mut Choice, first: &Card) -> Card {
    let Said { mut k, m, mut columns, .. } = match reference::read_card(first) {
        Ok(read) => read,
        Err(_) => return any_card(choice, 6),
    };
    if !choice.one_in(4) {
        (1..m).for_each(|at| columns.swap(at, choice.below(at + 1)));
    }
    match choice.below(16) {
        0 | 1 => other_multiplicities(choice, &mut columns),
        2 | 3 => other_column(choice, k, &mut columns),
        4 | 5 => exchange_disks(choice, &mut columns),
        6 | 7 => renumber_data(choice, k, &mut columns),
        8 => k = choice.pick(&[k - 1, k + 1, 16]),
        9 => columns.truncate(m - 1),
        10 => columns.push(columns[0]),
        11 => {
            let mut card = card_of(k, m, &columns);
            card[choice.below(2 + 2 * m)] ^= choice.byte();
            return of_any_edition(choice, card);
        }
        _ => {}
    }
    let card = card_of(k, columns.len(), &columns);
    of_any_edition(choice, card)
}

/// A column that stands more than once gives way to any of them: the same columns, and not as often each.
fn other_multiplicities(choice: &mut Choice, columns: &mut [u16]) {
    if let Some(again) = (1..columns.len()).find(|&j| columns[..j].contains(&columns[j])) {
        columns[again] = choice.pick(columns);
    }
}

/// One column has one or two data disks more or less, unless nothing is left.
fn other_column(choice: &mut Choice, k: usize, columns: &mut [u16]) {
    let at = choice.below(columns.len());
    let changed = columns[at] ^ (1 << choice.below(k) | 1 << choice.below(k));
    if changed != 0 {
        columns[at] = changed;
    }
}

/// Two columns exchange some of their data disks, unless nothing is left of one: the sum and the XOR of all columns stay.
fn exchange_disks(choice: &mut Choice, columns: &mut [u16]) {
    let (one, other) = (choice.below(columns.len()), choice.below(columns.len()));
    let some = (columns[one] ^ columns[other]) & choice.below(0x10000) as u16;
    if columns[one] != some && columns[other] != some {
        columns[one] ^= some;
        columns[other] ^= some;
    }
}

/// Data disks in another order: the vectors stay equal.
fn renumber_data(choice: &mut Choice, k: usize, columns: &mut [u16]) {
    for _ in 0..1 + choice.below(3) {
        let (one, other) = (choice.below(k), choice.below(k));
        for column in columns.iter_mut() {
            let differ = (*column >> one ^ *column >> other) & 1;
            *column ^= differ << one ^ differ << other;
        }
    }
}

/// Every two cards of up to 6 disks.
fn every_two(n: usize, _: &mut Choice, then: &mut dyn FnMut(&Input)) {
    if n > 6 {
        return;
    }
    let others: Vec<Card> = (2..=6).flat_map(every_card).collect();
    for card in every_card(n) {
        let mut input = Input { card, ..Input::default() };
        for other in &others {
            input.other.clone_from(other);
            then(&input);
        }
    }
}
