//! The calls on cards alone.

use crate::{ffi, Error};

/// The edition of a card, which the caller names.
#[derive(Debug, Clone, Copy, PartialEq, Eq)]
pub enum Edition {
    /// The bytes k, m, then the columns. Every disk's wear counts as 1.
    First,
    /// The byte 0x02, then k, m, the columns, then a wear of 1 to 255 for each disk.
    Second,
}

/// What a card says.
#[derive(Debug, Clone, Copy, PartialEq, Eq)]
pub struct Card {
    /// The number of data disks, 1 to 16.
    pub k: usize,
    /// The number of parity disks, 1 to 16.
    pub m: usize,
    /// The m columns, then zeros.
    pub columns: [u16; 16],
    /// The n wears, each 1 in edition 1, then zeros.
    pub wears: [u8; 32],
}

/// Takes a card; answers k, m, the columns and the wears.
///
/// Refuses [the card's](crate#editions). Writes nothing.
///
/// ```
/// use bridgecrumb::{read_card, Edition, Error};
/// // C11 of document 01
/// let card = read_card(Edition::First, &[0x02, 0x01, 0x03, 0x00])?;
/// assert_eq!((card.k, card.m, card.columns[0]), (2, 1, 3));
/// assert_eq!(card.wears[..4], [1, 1, 1, 0]);
/// assert_eq!(read_card(Edition::First, &[0x02, 0x01, 0x04, 0x00]), Err(Error::Column(0)));
/// // the same code in edition 2, disk 1 tired
/// let worn = read_card(Edition::Second, &[0x02, 0x02, 0x01, 0x03, 0x00, 1, 200, 1])?;
/// assert_eq!((worn.k, worn.m, worn.columns), (card.k, card.m, card.columns));
/// assert_eq!(worn.wears[..4], [1, 200, 1, 0]);
/// assert_eq!(read_card(Edition::Second, &[0x03, 0x02, 0x01, 0x03, 0x00, 1, 200, 1]), Err(Error::FirstByte));
/// assert_eq!(read_card(Edition::Second, &[0x02, 0x02, 0x01, 0x03, 0x00, 1, 200, 0]), Err(Error::ZeroWear));
/// # Ok::<(), Error>(())
/// ```
pub fn read_card(edition: Edition, card: &[u8]) -> Result<Card, Error> {
    let mut counts = [0; 2];
    let mut columns = [0; 16];
    let mut wears = [0; 32];
    ffi::card_read(edition, card, &mut counts, &mut columns, &mut wears)?;
    let [k, m] = counts;
    Ok(Card { k, m, columns, wears })
}

/// Takes k, m, the m columns, the wears, n of them for edition 2 and none for edition 1, and a buffer of exactly
/// 3 + 2m + n bytes for edition 2 and 2 + 2m for edition 1; writes the card into the buffer.
///
/// Refuses 2, 3, then 4 where there are not m columns or the wears are more or fewer, 5, 23, then 7 where the buffer
/// has another length. A refused call writes nothing.
///
/// ```
/// use bridgecrumb::{write_card, Edition};
/// // C6 of document 01
/// let mut card = [0; 4];
/// write_card(Edition::First, 2, 1, &[1], &[], &mut card)?;
/// assert_eq!(card, [0x02, 0x01, 0x01, 0x00]);
/// let mut worn = [0; 8];
/// write_card(Edition::Second, 2, 1, &[1], &[7, 1, 255], &mut worn)?;
/// assert_eq!(worn, [0x02, 0x02, 0x01, 0x01, 0x00, 7, 1, 255]);
/// # Ok::<(), bridgecrumb::Error>(())
/// ```
pub fn write_card(
    edition: Edition,
    k: usize,
    m: usize,
    columns: &[u16],
    wears: &[u8],
    out: &mut [u8],
) -> Result<(), Error> {
    ffi::card_write(edition, k, m, columns, wears, out)?;
    Ok(())
}

/// Takes a card of edition 1 and a buffer of exactly 3 + 2m + n bytes; writes the card of edition 2 with the same k, m
/// and columns, and every wear 1, into the buffer.
///
/// Refuses 1 to 5, then 7 where the buffer has another length. A refused call writes nothing.
///
/// ```
/// let mut card = [0; 8];
/// bridgecrumb::card_up(&[0x02, 0x01, 0x01, 0x00], &mut card)?;
/// assert_eq!(card, [0x02, 0x02, 0x01, 0x01, 0x00, 1, 1, 1]);
/// # Ok::<(), bridgecrumb::Error>(())
/// ```
pub fn card_up(card: &[u8], out: &mut [u8]) -> Result<(), Error> {
    ffi::card_up(card, out)?;
    Ok(())
}

/// Takes a card of edition 2 and a buffer of exactly 2 + 2m bytes; writes the card of edition 1 with the same k, m and
/// columns into the buffer. After [`card_up`] it gives the same bytes back.
///
/// Refuses 1, 22, 2 to 5, 23, then 7 where the buffer has another length, then 24 unless every wear is 1. A refused
/// call writes nothing.
///
/// ```
/// use bridgecrumb::{card_down, Error};
/// let mut card = [0; 4];
/// card_down(&[0x02, 0x02, 0x01, 0x01, 0x00, 1, 1, 1], &mut card)?;
/// assert_eq!(card, [0x02, 0x01, 0x01, 0x00]);
/// assert_eq!(card_down(&[0x02, 0x02, 0x01, 0x01, 0x00, 1, 2, 1], &mut card), Err(Error::Lossy));
/// # Ok::<(), Error>(())
/// ```
pub fn card_down(card: &[u8], out: &mut [u8]) -> Result<(), Error> {
    ffi::card_down(card, out)?;
    Ok(())
}

/// Takes a distance d of 3 or 4, m, k and a buffer of exactly 2 + 2m bytes; writes the card of the Stepped Combination
/// code, of edition 1, into the buffer. Data disk i goes into the parity disks of the i-th parity set, counted from 0: sizes go up from
/// d - 1, by 1 for d = 3 and by 2 for d = 4, smaller size first, then smaller number, where bit j stands for parity
/// disk k + j. No minimal erasure of the code holds fewer than d disks.
///
/// Refuses 2, 3, then 20 where d is neither 3 nor 4, then 21 unless 2^(m-1) - m < k <= 2^m - m - 1 for d = 3, or
/// 2^(m-2) - m + 1 < k <= 2^(m-1) - m for d = 4 (no k where m is 1), then 7 where the buffer has another length. A
/// refused call writes nothing.
///
/// ```
/// use bridgecrumb::{write_stepped_card, Error};
/// // the parity sets are 3, 5, 6 and 7: data disks 0 to 2 have two parity disks each, data disk 3 all three
/// let mut card = [0; 8];
/// write_stepped_card(3, 3, 4, &mut card)?;
/// assert_eq!(card, [4, 3, 0b1011, 0, 0b1101, 0, 0b1110, 0]);
/// // three parity disks have no fifth set of two or more
/// assert_eq!(write_stepped_card(3, 3, 5, &mut card), Err(Error::Bounds));
/// assert_eq!(write_stepped_card(5, 3, 4, &mut card), Err(Error::Distance));
/// # Ok::<(), Error>(())
/// ```
pub fn write_stepped_card(d: usize, m: usize, k: usize, out: &mut [u8]) -> Result<(), Error> {
    ffi::card_stepped(d, m, k, out)?;
    Ok(())
}

/// Takes two cards, each of its own edition; answers whether they have the same k and m, and columns that are a rearrangement
/// of each other: the same columns, each as often, in any order. Then the parity disks of the one can be renumbered so that for
/// the same data each disk holds what the other card's disk of that number holds, and the lists of minimal erasures match entry
/// for entry after it. Data disks keep their numbers. Equal vectors are not enough; wears have no effect.
///
/// Refuses [the card's](crate#editions), the first card's faults before the other's. Writes nothing.
///
/// ```
/// use bridgecrumb::{alike, card_up, minimal_erasures, Edition::{First, Second}};
/// // C1 of document 01, and its columns in another order: parity disks 4, 5 and 6 of the one are 5, 6 and 4 of the other
/// let (c1, turned) = ([4, 3, 7, 0, 11, 0, 13, 0], [4, 3, 13, 0, 7, 0, 11, 0]);
/// assert!(alike(First, &c1, First, &turned)?);
/// let (mut first, mut second) = ([0; 14], [0; 14]);
/// let told = minimal_erasures(First, &c1, &mut first)?;
/// minimal_erasures(First, &turned, &mut second)?;
/// assert_eq!((first[0], second[0]), (0b011_0010, 0b110_0010));
///
/// // with its data disks 0 and 1 swapped C1 has the same vector, and the cards are not alike
/// let swapped = [4, 3, 7, 0, 11, 0, 14, 0];
/// assert_eq!(minimal_erasures(First, &swapped, &mut second)?.vector, told.vector);
/// assert!(!alike(First, &c1, First, &swapped)?);
///
/// // the other card in edition 2
/// let mut worn = [0; 16];
/// card_up(&turned, &mut worn)?;
/// assert!(alike(First, &c1, Second, &worn)?);
/// # Ok::<(), bridgecrumb::Error>(())
/// ```
pub fn alike(edition: Edition, card: &[u8], other_edition: Edition, other: &[u8]) -> Result<bool, Error> {
    Ok(ffi::alike(edition, card, other_edition, other)? == 1)
}
