//! Cards: every small one, chosen ones, and damaged ones; and sets of their disks.

use crate::choice::Choice;
use crate::editions::{damage_edition, of_any_edition};
use crate::reference::{self, Card, Edition, Said};

/// A card of edition 1.
pub fn card_of(k: usize, m: usize, columns: &[u16]) -> Card {
    let mut card = vec![k as u8, m as u8];
    card.extend(columns.iter().flat_map(|column| column.to_le_bytes()));
    Card::first(card)
}

/// Document 01's C1.
pub fn c1() -> Card {
    card_of(4, 3, &[7, 11, 13])
}

/// Every card of edition 1 of n disks: all k, all columns.
pub fn every_card(n: usize) -> Vec<Card> {
    let mut cards = Vec::new();
    for k in 1..n {
        let mut columns = vec![1; n - k];
        loop {
            cards.push(card_of(k, n - k, &columns));
            // the next columns, counted up from the last
            match columns.iter().rposition(|&column| column < (1 << k) - 1) {
                None => break,
                Some(at) => {
                    columns[at] += 1;
                    columns[at + 1..].fill(1);
                }
            }
        }
    }
    cards
}

/// Columns as they come, of few data disks, all equal, full, or each the next few data disks.
pub fn any_columns(choice: &mut Choice, k: usize, m: usize) -> Vec<u16> {
    let full = ((1u32 << k) - 1) as u16;
    let kind = choice.below(10);
    let mut columns: Vec<u16> = Vec::new();
    for j in 0..m {
        let coin = choice.below(0x10000) as u16;
        let column = match kind {
            0 => columns.first().copied().unwrap_or(coin),
            1 => full,
            2 => 1 << (j % k) | 1 << ((j + 1) % k),
            3..=5 => coin & choice.below(0x10000) as u16,
            _ => coin,
        };
        // where nothing is left, a data disk
        columns.push(if column & full == 0 { 1 << (coin as usize % k) } else { column & full });
    }
    columns
}

/// Columns out of at most half as many, so that some stand more than once where there are two or more.
pub fn repeated_columns(choice: &mut Choice, k: usize, m: usize) -> Vec<u16> {
    let different = 1 + choice.below((m + 1) / 2);
    let from = any_columns(choice, k, different);
    (0..m).map(|_| choice.pick(&from)).collect()
}

pub fn card_of_size(choice: &mut Choice, k: usize, m: usize) -> Card {
    card_of(k, m, &any_columns(choice, k, m))
}

/// A card in which this data disk, one of two or more, stands in the columns of the set and in no other.
pub fn card_naming(choice: &mut Choice, k: usize, m: usize, disk: usize, naming: u32) -> Card {
    let mut columns = any_columns(choice, k, m);
    for (j, column) in columns.iter_mut().enumerate() {
        *column &= !(1 << disk);
        if naming >> j & 1 == 1 {
            *column |= 1 << disk;
        } else if *column == 0 {
            // nothing is left: the next data disk
            *column = 1 << ((disk + 1) % k);
        }
    }
    card_of(k, m, &columns)
}

/// A good card of edition 1 of up to so many data and parity disks; one in 16 has as many of both.
pub fn good_card(choice: &mut Choice, most_k: usize, most_m: usize) -> Card {
    let (k, m) = match choice.below(16) {
        0 => (most_k, most_m),
        _ => (1 + choice.below(most_k), 1 + choice.below(most_m)),
    };
    card_of_size(choice, k, m)
}

/// A card of edition 1 of up to so many data disks, or one with one or two faults, or any bytes.
pub fn any_first_card(choice: &mut Choice, most_k: usize) -> Card {
    let kind = choice.below(8);
    if kind == 0 {
        let len = choice.below(40);
        return Card::first(choice.bytes(len));
    }
    let mut card = if kind < 4 { good_card(choice, 4, 4) } else { good_card(choice, most_k, 16) };
    if kind == 1 {
        for _ in 0..1 + choice.below(2) {
            damage(choice, &mut card.bytes);
        }
    }
    card
}

/// Such a card, or the same of edition 2, of which one in 8 has a fault of this edition.
pub fn any_card(choice: &mut Choice, most_k: usize) -> Card {
    let first = any_first_card(choice, most_k);
    let mut card = of_any_edition(choice, first);
    if card.edition == Edition::Second && choice.one_in(8) {
        damage_edition(choice, &mut card);
    }
    // now and then an edition-1 card is named as one of edition 2
    if card.edition == Edition::First && choice.one_in(64) {
        card.edition = Edition::Second;
    }
    card
}

fn damage(choice: &mut Choice, card: &mut Vec<u8>) {
    let counts = [0, 1, 15, 16, 17, 18, 32, 255];
    match choice.below(7) {
        0 => card.truncate(choice.below(card.len() + 1)),
        1 => {
            let more = choice.pick(&[1, 2, 3, 256, 512]);
            card.extend(choice.bytes(more));
        }
        2 if !card.is_empty() => card[0] = choice.pick(&counts),
        3 if card.len() > 1 => card[1] = choice.pick(&counts),
        4 | 5 if card.len() > 3 => {
            // a column of 0, or a data disk that the code lacks, the first one after its own more often than others
            let at = 2 + 2 * choice.below(card.len() / 2 - 1);
            let (k, old) = (usize::from(card[0]).min(15), u16::from_le_bytes([card[at], card[at + 1]]));
            let wrong = match choice.below(4) {
                0 | 1 => 0,
                2 => old | 1 << k,
                _ => old | 1 << choice.below(16),
            };
            card[at..at + 2].copy_from_slice(&wrong.to_le_bytes());
        }
        _ if !card.is_empty() => {
            let at = choice.below(card.len());
            card[at] = choice.byte();
        }
        _ => {}
    }
}

/// How many disks a card's code has, 32 where the card is refused.
pub fn disks_of(card: &Card) -> usize {
    reference::read_card(card).map_or(32, |said| said.k + said.m)
}

/// A set: of up to as many disks as there is parity, of any disks, of all, or with a disk that the code lacks.
pub fn any_set(choice: &mut Choice, card: &Card) -> u32 {
    let (n, m) = reference::read_card(card).map_or((32, 16), |said| (said.k + said.m, said.m));
    let all = ((1u64 << n) - 1) as u32;
    match choice.below(16) {
        0 => choice.number() as u32,
        1 => all,
        2 if n < 32 => choice.number() as u32 & all | 1 << (n + choice.below(32 - n)),
        3..=6 => choice.number() as u32 & all,
        _ => {
            let size = choice.below(m + 1);
            choice.set(n, size)
        }
    }
}

/// A fatal set of a code: a data disk with the parity disks whose columns name it, which are undetermined, and so many other disks.
pub fn fatal_set(choice: &mut Choice, card: &Card, others: usize) -> u32 {
    let Said { k, m, columns, .. } = reference::read_card(card).expect("a code");
    let disk = choice.below(k);
    let naming = (0..m).filter(|&j| columns[j] >> disk & 1 == 1).map(|j| 1 << (k + j));
    choice.set(k + m, others.min(k + m)) | 1 << disk | naming.sum::<u32>()
}

/// A loss, fatal about as often as not: none, a fatal set with up to as many other disks as there is parity, or any set.
pub fn any_loss(choice: &mut Choice, card: &Card) -> u32 {
    match (choice.below(8), reference::read_card(card)) {
        (0, _) => 0,
        (1 | 2, Ok(said)) => {
            let others = choice.below(said.m + 1);
            fatal_set(choice, card, others)
        }
        _ => any_set(choice, card),
    }
}

/// A disk of the code, or one that it lacks, by a little, by far, or only above its lowest bits.
pub fn any_disk(choice: &mut Choice, n: usize) -> usize {
    match choice.below(12) {
        0 => n + choice.below(3),
        1 => choice.far_number(),
        2 => choice.below(n) | 1 << choice.pick(&[8, 16, 32, 63]),
        _ => choice.below(n),
    }
}
