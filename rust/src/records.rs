//! The calls on record files.

use crate::{ffi, Error};

/// What a record file says.
#[derive(Debug, Clone, Copy, PartialEq, Eq)]
pub struct Record {
    /// The number of data disks, 1 to 16.
    pub k: usize,
    /// The number of parity disks, 1 to 16.
    pub m: usize,
    /// The m columns of the card, then zeros.
    pub columns: [u16; 16],
    /// The strips' length, 1 to 65,536.
    pub strip_len: usize,
    /// The set of lost disks: those whose strips the file lacks.
    pub lost: u32,
}

/// Takes a card of edition 1, the strips' length, the set of lost disks, a stripe and an output; writes the record at the
/// output's front and leaves the rest as it was. Answers the record's length: 10 bytes, 10 for the card and
/// for each disk, the card's, and `strip_len` for each disk that is not lost.
///
/// Refuses 1 to 5, then 6, then 8, then 7 where the stripe's length is not `n * strip_len`, then 16 where the
/// output is shorter than the record. A refused call writes nothing.
///
/// ```
/// // C7's stripe of document 01 without disk 0
/// let card = [4, 3, 7, 0, 11, 0, 13, 0];
/// let mut file = [0; 120];
/// let len = bridgecrumb::write_record(&card, 1, 1, &[0x11, 0x22, 0x44, 0x88, 0x77, 0xBB, 0xDD], &mut file)?;
/// assert_eq!(len, 10 + 8 * 10 + 8 + 6);
/// assert_eq!(file[..10], [0x46, 0x58, 0x43, 0x31, 1, 0, 0, 0, 8, 0]);
/// assert_eq!(file[90..len], [4, 3, 7, 0, 11, 0, 13, 0, 0x22, 0x44, 0x88, 0x77, 0xBB, 0xDD]);
/// # Ok::<(), bridgecrumb::Error>(())
/// ```
pub fn write_record(card: &[u8], strip_len: usize, lost: u32, stripe: &[u8], out: &mut [u8]) -> Result<usize, Error> {
    ffi::record_write(card, strip_len, lost, stripe, out)
}

/// Takes a record file; answers what it says: k, m, the columns, the strips' length and the lost set.
///
/// Refuses 13, then 6, then 14 (the number of entries, entries past the end, the card's entry), then the card's
/// 1 to 5, then 14 again (the number of entries against n, the strips' entries), then 15. Writes nothing.
///
/// ```
/// let card = [4, 3, 7, 0, 11, 0, 13, 0];
/// let mut file = [0; 104];
/// bridgecrumb::write_record(&card, 1, 1, &[0x11, 0x22, 0x44, 0x88, 0x77, 0xBB, 0xDD], &mut file)?;
/// let record = bridgecrumb::read_record(&file)?;
/// assert_eq!((record.k, record.m, record.strip_len, record.lost), (4, 3, 1, 1));
/// assert_eq!(record.columns[..3], [7, 11, 13]);
/// assert_eq!(bridgecrumb::read_record(&file[..103]), Err(bridgecrumb::Error::FileLength));
/// # Ok::<(), bridgecrumb::Error>(())
/// ```
pub fn read_record(file: &[u8]) -> Result<Record, Error> {
    let mut fields = [0; 4];
    let mut columns = [0; 16];
    ffi::record_read(file, &mut fields, &mut columns)?;
    let [k, m, strip_len, lost] = fields;
    // the lost set comes in 64 bits and has at most 32
    Ok(Record { k, m, columns, strip_len, lost: lost as u32 })
}

/// Takes a record file and a disk; answers the disk's strip as a part of the file, not a copy.
///
/// Refuses as [`read_record`] does, then 9, then 16 where the disk is lost. Writes nothing.
///
/// ```
/// use bridgecrumb::{body, Error};
/// let card = [4, 3, 7, 0, 11, 0, 13, 0];
/// let mut file = [0; 104];
/// bridgecrumb::write_record(&card, 1, 1, &[0x11, 0x22, 0x44, 0x88, 0x77, 0xBB, 0xDD], &mut file)?;
/// assert_eq!(body(&file, 1)?, [0x22]);
/// assert_eq!(body(&file, 0), Err(Error::NoRoom));
/// assert_eq!(body(&file, 7), Err(Error::NoDisk));
/// # Ok::<(), bridgecrumb::Error>(())
/// ```
pub fn body(file: &[u8], disk: usize) -> Result<&[u8], Error> {
    let mut place = [0; 2];
    ffi::record_body(file, disk, &mut place)?;
    let [start, len] = place;
    Ok(&file[start..start + len])
}
