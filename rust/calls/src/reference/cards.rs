//! Cards of both editions, byte by byte: the reader, the writer, the converters, and two cards alike.

use super::{refusal, Refusal};
use std::ops::{Deref, DerefMut};

/// What the caller names a card's edition.
#[derive(Clone, Copy, Debug, Default, PartialEq, Eq, Hash)]
pub enum Edition {
    #[default]
    First,
    Second,
}

/// The bytes of a card, and the edition that is named for them.
#[derive(Clone, Debug, Default, PartialEq, Eq, Hash)]
pub struct Card {
    pub edition: Edition,
    pub bytes: Vec<u8>,
}

impl Card {
    pub fn first(bytes: Vec<u8>) -> Card {
        Card { edition: Edition::First, bytes }
    }

    pub fn second(bytes: Vec<u8>) -> Card {
        Card { edition: Edition::Second, bytes }
    }

    /// The bytes of k, m and the columns, as far as they are there.
    pub fn code_bytes(&self) -> &[u8] {
        let from_k = match self.edition {
            Edition::First => &self.bytes,
            Edition::Second => self.bytes.get(1..).unwrap_or(&[]),
        };
        let columns = from_k.get(1).map_or(0, |&m| usize::from(m));
        &from_k[..from_k.len().min(2 + 2 * columns)]
    }
}

impl Deref for Card {
    type Target = Vec<u8>;

    fn deref(&self) -> &Vec<u8> {
        &self.bytes
    }
}

impl DerefMut for Card {
    fn deref_mut(&mut self) -> &mut Vec<u8> {
        &mut self.bytes
    }
}

/// What a card says.
#[derive(Clone, Debug, PartialEq, Eq)]
pub struct Said {
    pub k: usize,
    pub m: usize,
    pub columns: Vec<u16>,
    pub wears: Vec<u8>,
}

/// Refusals 2 and 3.
pub fn check_counts(k: usize, m: usize) -> Result<(), Refusal> {
    if !(1..=16).contains(&k) {
        return refusal(2);
    }
    if !(1..=16).contains(&m) {
        return refusal(3);
    }
    Ok(())
}

/// Refusal 5, of the first wrong column.
fn check_columns(k: usize, columns: &[u16]) -> Result<(), Refusal> {
    match columns.iter().position(|&column| column == 0 || u32::from(column) >= 1 << k) {
        Some(j) => Err((5, Some(j))),
        None => Ok(()),
    }
}

/// Refusal 23.
fn check_wears(wears: &[u8]) -> Result<(), Refusal> {
    if wears.contains(&0) {
        return refusal(23);
    }
    Ok(())
}

fn columns_of(bytes: &[u8]) -> Vec<u16> {
    bytes.chunks_exact(2).map(|two| u16::from(two[0]) + 256 * u16::from(two[1])).collect()
}

/// The card reader. Document 02, request [10]: edition 2 is a byte 0x02, then k, m, the columns, then a wear of 1 to 255 for each disk; edition 1
/// counts as wear 1.
pub fn read_card(card: &Card) -> Result<Said, Refusal> {
    match card.edition {
        Edition::First => read_first(card),
        Edition::Second => read_second(card),
    }
}

/// Refusals 1, 2, 3, 4, 5.
fn read_first(card: &[u8]) -> Result<Said, Refusal> {
    if card.len() < 2 {
        return refusal(1);
    }
    let (k, m) = (usize::from(card[0]), usize::from(card[1]));
    check_counts(k, m)?;
    if card.len() != 2 + 2 * m {
        return refusal(4);
    }
    let columns = columns_of(&card[2..]);
    check_columns(k, &columns)?;
    Ok(Said { k, m, columns, wears: vec![1; k + m] })
}

/// Refusals 1, 22, 2, 3, 4, 5, 23.
fn read_second(card: &[u8]) -> Result<Said, Refusal> {
    if card.len() < 3 {
        return refusal(1);
    }
    if card[0] != 0x02 {
        return refusal(22);
    }
    let (k, m) = (usize::from(card[1]), usize::from(card[2]));
    check_counts(k, m)?;
    if card.len() != 3 + 2 * m + (k + m) {
        return refusal(4);
    }
    let columns = columns_of(&card[3..3 + 2 * m]);
    check_columns(k, &columns)?;
    let wears = card[3 + 2 * m..].to_vec();
    check_wears(&wears)?;
    Ok(Said { k, m, columns, wears })
}

/// The bytes of a card of either edition; the first has no place for wears.
fn card_bytes(edition: Edition, said: &Said) -> Vec<u8> {
    let mut card = if edition == Edition::Second { vec![0x02] } else { Vec::new() };
    card.extend([said.k as u8, said.m as u8]);
    for column in &said.columns {
        card.push((column % 256) as u8);
        card.push((column / 256) as u8);
    }
    if edition == Edition::Second {
        card.extend(&said.wears);
    }
    card
}

/// Refusal 7, of a buffer that the card does not fill.
fn filling(card: Vec<u8>, out_len: usize) -> Result<Vec<u8>, Refusal> {
    if out_len != card.len() {
        return refusal(7);
    }
    Ok(card)
}

/// The card writer, refusals 2, 3, 4, 5, 23, 7: what it puts into a buffer of this length.
pub fn write_card(edition: Edition, said: &Said, out_len: usize) -> Result<Vec<u8>, Refusal> {
    check_counts(said.k, said.m)?;
    let wears = if edition == Edition::Second { said.k + said.m } else { 0 };
    if said.columns.len() != said.m || said.wears.len() != wears {
        return refusal(4);
    }
    check_columns(said.k, &said.columns)?;
    check_wears(&said.wears)?;
    filling(card_bytes(edition, said), out_len)
}

/// The converter's way up, of a card of edition 1: its refusals, then 7.
pub fn up(card: &[u8], out_len: usize) -> Result<Vec<u8>, Refusal> {
    filling(card_bytes(Edition::Second, &read_first(card)?), out_len)
}

/// The converter's way down, of a card of edition 2: its refusals, then 7, then 24.
pub fn down(card: &[u8], out_len: usize) -> Result<Vec<u8>, Refusal> {
    let said = read_second(card)?;
    let down = filling(card_bytes(Edition::First, &said), out_len)?;
    if said.wears.iter().any(|&wear| wear != 1) {
        return refusal(24);
    }
    Ok(down)
}

/// Two cards alike: the same k and m, and the same columns in some order, which are then equal in the order of their numbers.
pub fn alike(card: &Card, other: &Card) -> Result<bool, Refusal> {
    let sorted = |card: &Card| {
        read_card(card).map(|mut said| {
            said.columns.sort_unstable();
            (said.k, said.m, said.columns)
        })
    };
    let (card, other) = (sorted(card)?, sorted(other)?);
    Ok(card == other)
}
