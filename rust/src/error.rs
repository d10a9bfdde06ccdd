//! The refusals.

use std::fmt;

/// Why a call was refused: the documents' refusals, by number.
#[derive(Debug, Clone, Copy, PartialEq, Eq)]
pub enum Error {
    /// 1: the card is shorter than 2 bytes, or one of edition 2 is shorter than 3.
    CardShort,
    /// 2: k is outside 1 to 16.
    DataCount,
    /// 3: m is outside 1 to 16.
    ParityCount,
    /// 4: the card's length is not 2 + 2m, or for edition 2 not 3 + 2m + n; for the card writer, the list has not m columns,
    /// or the wears are not n for edition 2, or some for edition 1.
    CardLength,
    /// 5: a column is 0 or at least 2^k; carries the first such column's number.
    Column(usize),
    /// 6: the strip length is outside 1 to 65,536.
    StripLength,
    /// 7: a stripe, a second buffer, a tray or a card buffer has another length than it must have.
    BufferLength,
    /// 8: the set holds a disk, or a slot, that the code lacks.
    OutsideSet,
    /// 9: the code lacks the disk.
    NoDisk,
    /// 10: the list is longer than the lent slice; carries the count that is needed.
    ListShort(usize),
    /// 11: the loss of the set is fatal; or, for the least-wear call, the disk has no equation among the survivors.
    Fatal,
    /// 12: no data encodes to what the surviving disks have.
    Inconsistent,
    /// 13: the file is shorter than 10 bytes, or begins with another mark.
    Mark,
    /// 14: the file's contents are not those of a record.
    Contents,
    /// 15: the file has another length than its record.
    FileLength,
    /// 16: the output is shorter than the record, or the disk whose body is wanted is lost.
    NoRoom,
    /// 17: the tray has no stripe, or more than 8.
    StripeCount,
    /// 18: the disk whose strip is to be rewritten is a parity disk.
    ParityDisk,
    /// 19: the new strip has another length than the strips.
    NewLength,
    /// 20: the distance is neither 3 nor 4.
    Distance,
    /// 21: k is outside the bounds for the distance and m.
    Bounds,
    /// 22: a card of edition 2 has another first byte than 0x02.
    FirstByte,
    /// 23: a disk's wear is 0.
    ZeroWear,
    /// 24: a card that is to become one of edition 1 has a wear that is not 1.
    Lossy,
}

impl Error {
    /// The documents' number of the refusal.
    ///
    /// ```
    /// assert_eq!(bridgecrumb::Error::Fatal.number(), 11);
    /// ```
    pub fn number(&self) -> u8 {
        match self {
            Error::CardShort => 1,
            Error::DataCount => 2,
            Error::ParityCount => 3,
            Error::CardLength => 4,
            Error::Column(_) => 5,
            Error::StripLength => 6,
            Error::BufferLength => 7,
            Error::OutsideSet => 8,
            Error::NoDisk => 9,
            Error::ListShort(_) => 10,
            Error::Fatal => 11,
            Error::Inconsistent => 12,
            Error::Mark => 13,
            Error::Contents => 14,
            Error::FileLength => 15,
            Error::NoRoom => 16,
            Error::StripeCount => 17,
            Error::ParityDisk => 18,
            Error::NewLength => 19,
            Error::Distance => 20,
            Error::Bounds => 21,
            Error::FirstByte => 22,
            Error::ZeroWear => 23,
            Error::Lossy => 24,
        }
    }

    /// What the refusal answers beside its number: the column of 5, the count needed of 10. The others answer
    /// nothing.
    ///
    /// ```
    /// // C12 of document 01: C3's list has two entries
    /// use bridgecrumb::{minimal_erasures, Edition};
    /// let refused = minimal_erasures(Edition::First, &[2, 2, 1, 0, 2, 0], &mut [0; 1]).unwrap_err();
    /// assert_eq!((refused.number(), refused.value()), (10, Some(2)));
    /// ```
    pub fn value(&self) -> Option<usize> {
        match *self {
            Error::Column(column) => Some(column),
            Error::ListShort(needed) => Some(needed),
            _ => None,
        }
    }
}

impl fmt::Display for Error {
    fn fmt(&self, out: &mut fmt::Formatter<'_>) -> fmt::Result {
        match self {
            Error::CardShort => out.write_str("the card is too short for k and m"),
            Error::DataCount => out.write_str("the number of data disks is outside 1 to 16"),
            Error::ParityCount => out.write_str("the number of parity disks is outside 1 to 16"),
            Error::CardLength => {
                out.write_str("the card has not one column for each parity disk, or not the wears of its edition")
            }
            Error::Column(column) => write!(out, "column {column} is empty or has a data disk that the code lacks"),
            Error::StripLength => out.write_str("the strip length is outside 1 to 65,536"),
            Error::BufferLength => {
                out.write_str("the stripe, second buffer, tray or card buffer has another length than it must have")
            }
            Error::OutsideSet => out.write_str("the set holds a disk or a slot that the code lacks"),
            Error::NoDisk => out.write_str("the code lacks the disk"),
            Error::ListShort(needed) => write!(out, "the lent slice is too short, {needed} entries are needed"),
            Error::Fatal => out.write_str("the loss of the set is fatal, or no equation of the disk survives"),
            Error::Inconsistent => out.write_str("no data encodes to what the surviving disks have"),
            Error::Mark => out.write_str("the file does not begin as a record does"),
            Error::Contents => out.write_str("the file's contents are not those of a record"),
            Error::FileLength => out.write_str("the file has another length than its record"),
            Error::NoRoom => out.write_str("the output is shorter than the record, or the disk is lost"),
            Error::StripeCount => out.write_str("the tray has no stripe or more than 8"),
            Error::ParityDisk => out.write_str("the disk is a parity disk"),
            Error::NewLength => out.write_str("the new strip has another length than the strips"),
            Error::Distance => out.write_str("the distance is neither 3 nor 4"),
            Error::Bounds => {
                out.write_str("the number of data disks is outside the bounds for the distance and the parity disks")
            }
            Error::FirstByte => out.write_str("the card does not begin as one of edition 2 does"),
            Error::ZeroWear => out.write_str("a disk's wear is 0"),
            Error::Lossy => out.write_str("a disk's wear is not 1, and edition 1 has no place for it"),
        }
    }
}

impl std::error::Error for Error {}
