//! The calls on stripes.

use crate::{ffi, Edition, Error};

/// Takes a card, the strips' length and a stripe; writes the m parity strips, each byte the XOR of the same
/// byte of its data disks. The data strips keep their bytes. Once the card is checked, what is read and
/// written, and how often, follows from k, m and `strip_len`, and not from the columns.
///
/// Refuses [the card's](crate#editions), then 6, then 7 where the stripe's length is not `n * strip_len`. A refused
/// call writes nothing.
///
/// ```
/// // C7 of document 01
/// let mut stripe = [0x11, 0x22, 0x44, 0x88, 0, 0, 0];
/// bridgecrumb::encode(bridgecrumb::Edition::First, &[4, 3, 7, 0, 11, 0, 13, 0], 1, &mut stripe)?;
/// assert_eq!(stripe, [0x11, 0x22, 0x44, 0x88, 0x77, 0xBB, 0xDD]);
/// # Ok::<(), bridgecrumb::Error>(())
/// ```
pub fn encode(edition: Edition, card: &[u8], strip_len: usize, stripe: &mut [u8]) -> Result<(), Error> {
    ffi::encode(edition, card, strip_len, stripe)?;
    Ok(())
}

/// Takes a card, the strips' length, the set of lost disks and a stripe; writes the lost strips, those of the
/// only data that encodes to what the surviving disks have. These keep their bytes. Answers how many disks
/// are lost. The bytes of lost strips before the call have no effect; with nothing lost this is a check.
///
/// Refuses [the card's](crate#editions), then 6, then 8, then 7 where the stripe's length is not `n * strip_len`, then
/// 11 where the loss of the set is fatal, then 12 where no data encodes to what the surviving disks have. A refused
/// call writes nothing.
///
/// ```
/// use bridgecrumb::{rebuild, Edition::First, Error};
/// let card = [4, 3, 7, 0, 11, 0, 13, 0];
/// // C8, C9 and C10 of document 01
/// let mut stripe = [0, 0, 0, 0x88, 0x77, 0xBB, 0xDD];
/// assert_eq!(rebuild(First, &card, 1, 7, &mut stripe), Ok(3));
/// assert_eq!(stripe, [0x11, 0x22, 0x44, 0x88, 0x77, 0xBB, 0xDD]);
/// assert_eq!(rebuild(First, &card, 1, 1, &mut [0, 0x22, 0x44, 0x88, 0x77, 0xBB, 0xDC]), Err(Error::Inconsistent));
/// assert_eq!(rebuild(First, &card, 1, 14, &mut stripe), Err(Error::Fatal));
/// ```
pub fn rebuild(edition: Edition, card: &[u8], strip_len: usize, lost: u32, stripe: &mut [u8]) -> Result<usize, Error> {
    ffi::rebuild(edition, card, strip_len, lost, stripe)
}

/// Takes what [`rebuild`] takes, and the loss may be fatal; writes the strips of the lost disks that the survivors
/// determine, those of any data that encodes to what the survivors have. Answers the set of the lost disks that they
/// don't determine, as [`undetermined`](crate::undetermined) does. The strips of these and of the survivors keep their
/// bytes. The bytes of lost strips before the call affect neither the answer nor a strip that is written. Where the
/// answer is 0, all lost strips are written, and the stripe is the one that [`rebuild`] leaves.
///
/// Refuses [the card's](crate#editions), then 6, then 8, then 7 where the stripe's length is not `n * strip_len`, then
/// 12 where no data encodes to what the surviving disks have, whether the loss is fatal or not; never 11. A refused
/// call writes nothing.
///
/// ```
/// use bridgecrumb::{partial_rebuild, Edition::First, Error};
/// let card = [4, 3, 7, 0, 11, 0, 13, 0];
/// // C7's stripe of document 01 without its data: disk 0 is told by the parities, disks 1 to 3 are not
/// let mut stripe = [0, 1, 2, 3, 0x77, 0xBB, 0xDD];
/// assert_eq!(partial_rebuild(First, &card, 1, 0b1111, &mut stripe), Ok(0b1110));
/// assert_eq!(stripe, [0x11, 1, 2, 3, 0x77, 0xBB, 0xDD]);
/// // disk 0 is there, and is not what the parities tell
/// let mut stripe = [0x10, 1, 2, 3, 0x77, 0xBB, 0xDD];
/// assert_eq!(partial_rebuild(First, &card, 1, 0b1110, &mut stripe), Err(Error::Inconsistent));
/// ```
pub fn partial_rebuild(
    edition: Edition,
    card: &[u8],
    strip_len: usize,
    lost: u32,
    stripe: &mut [u8],
) -> Result<u32, Error> {
    // a part of the lost set, so it has at most 32 bits
    Ok(ffi::partial_rebuild(edition, card, strip_len, lost, stripe)? as u32)
}

/// What quick repair answers.
#[derive(Debug, Clone, Copy, PartialEq, Eq)]
pub struct Repair {
    /// How many steps were made.
    pub steps: usize,
    /// What is left of each stripe's set of lost disks; 0 past the last stripe.
    pub left: [u32; 8],
}

/// Takes a card, the strips' length, the sets of lost disks of 1 to 8 stripes, a budget of steps and a tray, the
/// stripes one after the other. A step takes the lowest lost disk that is the only lost member of some parity's
/// check, that parity with its data disks, and the lowest such parity; it writes the XOR of the others. Stripes go
/// in turn, each until it sticks. Answers the steps made, at most the budget, and what is left of each set.
///
/// Each restored strip is the one that any data gives it which encodes to what the surviving disks have; strips that stay
/// lost keep their bytes. Where no data does, that is not noticed here: [`rebuild`] with what is left then
/// refuses as it would have before.
///
/// Refuses [the card's](crate#editions), then 6, then 17 where there are no stripes or more than 8, then 8, then 7
/// where the tray's length is not `n * strip_len` for each stripe. A refused call writes nothing.
///
/// ```
/// // C7's stripe of document 01, without disks 0 and 1, and without disks 0 to 2, which is for the solver
/// let card = [4, 3, 7, 0, 11, 0, 13, 0];
/// let mut tray = [0, 0, 0x44, 0x88, 0x77, 0xBB, 0xDD, 0, 0, 0, 0x88, 0x77, 0xBB, 0xDD];
/// let repair = bridgecrumb::quick_repair(bridgecrumb::Edition::First, &card, 1, &[0b11, 0b111], 100, &mut tray)?;
/// assert_eq!(repair.steps, 2);
/// assert_eq!(repair.left, [0, 0b111, 0, 0, 0, 0, 0, 0]);
/// assert_eq!(tray[..7], [0x11, 0x22, 0x44, 0x88, 0x77, 0xBB, 0xDD]);
/// # Ok::<(), bridgecrumb::Error>(())
/// ```
pub fn quick_repair(
    edition: Edition,
    card: &[u8],
    strip_len: usize,
    lost: &[u32],
    budget: usize,
    tray: &mut [u8],
) -> Result<Repair, Error> {
    let mut left = [0; 8];
    let steps = ffi::quick_repair(edition, card, strip_len, lost, budget, tray, &mut left)?;
    Ok(Repair { steps, left })
}

/// Takes a card, the strips' length, a stripe, a data disk and its new strip; XORs each byte of the disk's strip, and
/// of each parity strip whose column names the disk, with the old and the new data byte. So the disk's strip becomes
/// the new one. The other strips keep their bytes. An encoded stripe stays encoded; another is updated alike. Answers
/// the number of these strips: 1 and the naming parities, at most m + 1.
///
/// Refuses [the card's](crate#editions), then 6, then 9, then 18 where the disk is a parity disk, then 7 where the
/// stripe's length is not `n * strip_len`, then 19 where the new strip's is not `strip_len`. A refused call writes
/// nothing.
///
/// ```
/// use bridgecrumb::{update, Edition::First, Error};
/// let card = [4, 3, 7, 0, 11, 0, 13, 0];
/// // C7's stripe of document 01: disk 0 is in all three columns, disk 1 in two
/// let mut stripe = [0x11, 0x22, 0x44, 0x88, 0x77, 0xBB, 0xDD];
/// assert_eq!(update(First, &card, 1, &mut stripe, 0, &[0x10]), Ok(4));
/// assert_eq!(stripe, [0x10, 0x22, 0x44, 0x88, 0x76, 0xBA, 0xDC]);
/// assert_eq!(update(First, &card, 1, &mut stripe, 1, &[0x20]), Ok(3));
/// assert_eq!(stripe, [0x10, 0x20, 0x44, 0x88, 0x74, 0xB8, 0xDC]);
/// assert_eq!(update(First, &card, 1, &mut stripe, 4, &[0x77]), Err(Error::ParityDisk));
/// assert_eq!(update(First, &card, 1, &mut stripe, 0, &[]), Err(Error::NewLength));
/// ```
pub fn update(
    edition: Edition,
    card: &[u8],
    strip_len: usize,
    stripe: &mut [u8],
    disk: usize,
    new_strip: &[u8],
) -> Result<usize, Error> {
    ffi::update(edition, card, strip_len, stripe, disk, new_strip)
}
