//! The rows, by subject, and the faults that several calls share. Each list of faults spoils its call's good arguments.

pub mod alike;
pub mod cards;
pub mod converters;
pub mod records;
pub mod sets;
pub mod stepped;
pub mod strips;
pub mod trays;
pub mod turns;
pub mod updates;
pub mod wear;

use crate::cards::c1;
use crate::editions::with_wears;
use crate::input::Input;
use crate::reference::{Card, Edition};
use crate::table::Fault;

/// The ways to one refusal.
fn ways<T: 'static>(answer: u64, values: Vec<T>, spoil: fn(&mut Input, &T)) -> Vec<Fault> {
    let way = |value: T| Fault { answer, spoil: Box::new(move |input| spoil(input, &value)), alone: false };
    values.into_iter().map(way).collect()
}

/// C1 of an edition; in edition 2 each disk has another wear.
pub fn c1_of(edition: Edition) -> Card {
    match edition {
        Edition::First => c1(),
        Edition::Second => with_wears(&c1(), &[3, 1, 4, 2, 5, 9, 6]),
    }
}

type Change = fn(&mut Card);

/// Edition 1: refusals 1 to 5 of C1's bytes.
fn first_changes() -> Vec<(u64, Vec<Change>)> {
    vec![
        (1, vec![|card| card.clear(), |card| card.truncate(1)]),
        (2, vec![|card| card[0] = 0, |card| card[0] = 17, |card| card[0] = 255]),
        (3, vec![|card| card[1] = 0, |card| card[1] = 17, |card| card[1] = 255]),
        (4, vec![|card| card.truncate(2), |card| card.truncate(7), |card| card.push(0), |card| card.resize(264, 0)]),
        (5, vec![|card| card[2] = 0, |card| card[3] = 0x80]),
        (5 + 256, vec![|card| card[4..].fill(0), |card| card[5] = 1]),
        (5 + 512, vec![|card| card[6] = 16]),
    ]
}

/// Edition 2: refusals 1, 22, 2 to 5 and 23; the wears stand from byte 9 to 15, and the length is 9 without them.
fn second_changes() -> Vec<(u64, Vec<Change>)> {
    vec![
        (1, vec![|card| card.clear(), |card| card.truncate(1), |card| card.truncate(2)]),
        (22, vec![|card| card[0] = 1, |card| card[0] = 0, |card| card[0] = 0x82]),
        (2, vec![|card| card[1] = 0, |card| card[1] = 17, |card| card[1] = 255]),
        (3, vec![|card| card[2] = 0, |card| card[2] = 17, |card| card[2] = 255]),
        (4, vec![|card| card.truncate(9), |card| card.truncate(3), |card| card.truncate(15), |card| card.push(1)]),
        (5, vec![|card| card[3] = 0, |card| card[4] = 0x80]),
        (5 + 256, vec![|card| card[5..9].fill(0), |card| card[6] = 1]),
        (5 + 512, vec![|card| card[7] = 16]),
        (23, vec![|card| card[15] = 0, |card| card[9] = 0, |card| card[9..].fill(0)]),
    ]
}

/// The refusals of a card, `c1_of` its edition.
fn card_faults(edition: Edition, card: fn(&mut Input) -> &mut Card) -> Vec<Vec<Fault>> {
    let changes = match edition {
        Edition::First => first_changes(),
        Edition::Second => second_changes(),
    };
    let way =
        |answer: u64, change: Change| Fault { answer, spoil: Box::new(move |input| change(card(input))), alone: false };
    changes
        .into_iter()
        .map(|(answer, changes)| changes.into_iter().map(|change| way(answer, change)).collect())
        .collect()
}

/// Those of the input's card, then these.
fn card_then(edition: Edition, faults: impl IntoIterator<Item = Vec<Fault>>) -> Vec<Vec<Fault>> {
    card_faults(edition, |input| &mut input.card).into_iter().chain(faults).collect()
}

/// Refusal 6. Four or seven times some of these lengths are small in 64 bits.
fn strip_len_faults() -> Vec<Fault> {
    let wrong =
        vec![0, 65537, 65536 + 256, 1 << 32, 1 << 32 | 1, 1 << 32 | 65536, 1 << 62, 1 << 62 | 1, 1 << 63, usize::MAX];
    ways(6, wrong, |input, &strip_len| input.strip_len = strip_len)
}

/// Each disk that C1 lacks, alone, with all above it and with all below.
fn outside_sets() -> Vec<u32> {
    (7..32).flat_map(|disk| [1 << disk, !0 << disk, !0 >> (31 - disk)]).collect()
}

/// Refusal 8.
fn set_faults() -> Vec<Fault> {
    ways(8, outside_sets(), |input, &disks: &u32| input.set |= disks)
}

/// Refusal 9, of disks that C1 lacks; some have the lowest bits of one that it has.
fn disk_faults() -> Vec<Fault> {
    let wrong = vec![7, 8, 31, 32, 33, 255, 256, 65536, 1 << 32, 1 << 32 | 1, 1 << 63, usize::MAX];
    ways(9, wrong, |input, &disk| input.disk = disk)
}

/// Refusal 7, of a stripe of C1 with strips of 3 bytes.
fn stripe_faults() -> Vec<Fault> {
    length_faults(vec![-1, 1, -21, 256])
}

/// Refusal 7, of a stripe or tray with so many bytes more.
fn length_faults(changes: Vec<isize>) -> Vec<Fault> {
    ways(7, changes, |input, &more| {
        let len = input.stripe.len() as isize + more;
        input.stripe.resize(len as usize, 0)
    })
}
