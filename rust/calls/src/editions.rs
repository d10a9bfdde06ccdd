//! Cards of edition 2: wears by choice, and a card of edition 1 with them.

use crate::choice::Choice;
use crate::reference::{Card, Edition};

pub const EDITIONS: [Edition; 2] = [Edition::First, Edition::Second];

impl Edition {
    /// As the header names it.
    pub fn is_second(self) -> bool {
        self == Edition::Second
    }

    /// As the safe functions name it.
    pub fn named(self) -> bridgecrumb::Edition {
        match self {
            Edition::First => bridgecrumb::Edition::First,
            Edition::Second => bridgecrumb::Edition::Second,
        }
    }
}

/// Wears of n disks: all equal, few different ones, so that totals are often equal, one or two tired disks, or any.
pub fn any_wears(choice: &mut Choice, n: usize) -> Vec<u8> {
    let any = |choice: &mut Choice| 1 + choice.below(255) as u8;
    match choice.below(8) {
        0 => vec![1; n],
        1 => vec![choice.pick(&[2, 128, 254, 255]); n],
        2 | 3 => (0..n).map(|_| 1 + choice.below(3) as u8).collect(),
        4 => (0..n).map(|_| choice.pick(&[1, 255])).collect(),
        5 => {
            let mut wears = vec![1; n];
            (0..2).for_each(|_| wears[choice.below(n)] = any(choice));
            wears
        }
        _ => (0..n).map(|_| any(choice)).collect(),
    }
}

/// The bytes of edition 2, of those of edition 1.
pub fn with_wears(first: &[u8], wears: &[u8]) -> Card {
    Card::second([&[0x02], first, wears].concat())
}

/// A card of edition 1 as one of edition 2, with wears by choice; of another card these bytes and as many wears as it seems to want.
pub fn worn(choice: &mut Choice, first: &Card) -> Card {
    let n = first.iter().take(2).map(|&count| usize::from(count)).sum::<usize>().clamp(1, 32);
    let wears = any_wears(choice, n);
    with_wears(first, &wears)
}

/// A card of edition 1, or the same with wears, as often.
pub fn of_any_edition(choice: &mut Choice, first: Card) -> Card {
    if choice.one_in(2) {
        worn(choice, &first)
    } else {
        first
    }
}

/// What is wrong with edition 2 alone: its first byte, a wear, how many there are, or the name of its edition.
pub fn damage_edition(choice: &mut Choice, card: &mut Card) {
    let wears_at = 1 + card.code_bytes().len();
    match choice.below(5) {
        0 if !card.is_empty() => card[0] = choice.pick(&[0, 1, 3, 4, 16, 0x82, 255]),
        1 | 2 if card.len() > wears_at => {
            let at = wears_at + choice.below(card.len() - wears_at);
            card[at] = 0;
        }
        3 => {
            let len = card.len() + choice.below(5);
            card.resize(len.saturating_sub(2), 1);
        }
        _ => card.edition = Edition::First,
    }
}
