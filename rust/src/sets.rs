//! The calls on sets of disks: which losses are fatal and what they leave undetermined, and which disks tell a disk.

use crate::{ffi, Edition, Error};

/// What the lister answers.
#[derive(Debug, Clone, Copy, PartialEq, Eq)]
pub struct Listing {
    /// How many minimal erasures there are: so many entries of the slice were written.
    pub count: usize,
    /// Place i - 1 has how many of them hold i disks, for i from 1 to m + 1; the other places are 0. The
    /// vector's total is the count.
    pub vector: [usize; 17],
}

/// Takes a card and a set of disks; answers those of them that the other disks, the survivors, don't determine: the
/// disks on which two data words differ that agree on all survivors. The loss of the set is fatal where the answer is
/// not 0.
///
/// Refuses [the card's](crate#editions), then 8. Writes nothing.
///
/// ```
/// use bridgecrumb::{undetermined, Edition};
/// // C1 and C8 of document 01; with disks 0 to 3 lost, the parities still tell disk 0
/// let card = [4, 3, 7, 0, 11, 0, 13, 0];
/// assert_eq!(undetermined(Edition::First, &card, 7)?, 0);
/// assert_eq!(undetermined(Edition::First, &card, 14)?, 14);
/// assert_eq!(undetermined(Edition::First, &card, 15)?, 14);
/// assert_eq!(undetermined(Edition::First, &card, 127)?, 127);
/// # Ok::<(), bridgecrumb::Error>(())
/// ```
pub fn undetermined(edition: Edition, card: &[u8], set: u32) -> Result<u32, Error> {
    // a part of the set, so it has at most 32 bits
    Ok(ffi::verdict(edition, card, set)? as u32)
}

/// Takes a card and a slice; writes all minimal erasures (the fatal sets with no smaller fatal set inside) at
/// the slice's front, smaller size first, then smaller data part (the set number modulo 2^k). Answers
/// their count and their vector. Entries past the count keep what they had.
///
/// No entry lies inside another, none holds more than m + 1 disks, and whenever two differ, some entry lies within
/// the disks that belong to just one of them.
///
/// Refuses [the card's](crate#editions), then 10 where the slice is shorter than the count. A refused call writes
/// nothing.
///
/// ```
/// use bridgecrumb::{minimal_erasures, Edition};
/// // C1 of document 01
/// let mut list = [0; 16];
/// let told = minimal_erasures(Edition::First, &[4, 3, 7, 0, 11, 0, 13, 0], &mut list)?;
/// assert_eq!(list[..told.count], [50, 67, 84, 37, 104, 25, 14, 113, 102, 23, 90, 43, 60, 77]);
/// assert_eq!(told.vector[..4], [0, 0, 7, 7]);
/// // disk 1 is in both 50 and 67; what is in just one of them, 113, is listed
/// assert!(list[..told.count].contains(&(50 ^ 67)));
/// # Ok::<(), bridgecrumb::Error>(())
/// ```
pub fn minimal_erasures(edition: Edition, card: &[u8], out: &mut [u32]) -> Result<Listing, Error> {
    let mut vector = [0; 17];
    let count = ffi::list(edition, card, out, &mut vector)?;
    Ok(Listing { count, vector })
}

/// Takes a card, a disk and a slice; writes the disk's recovery equations (the sets without the disk whose XOR
/// is the disk) with no smaller one inside at the slice's front, smaller size first, then fewer parity disks,
/// then smaller set number. Answers their count. Entries past the count keep what they had.
///
/// Refuses [the card's](crate#editions), then 9, then 10 where the slice is shorter than the count. A refused call
/// writes nothing.
///
/// ```
/// use bridgecrumb::{equations, Edition};
/// // C2 of document 01
/// let mut list = [0; 4];
/// assert_eq!(equations(Edition::First, &[4, 3, 7, 0, 11, 0, 13, 0], 0, &mut list)?, 4);
/// assert_eq!(list, [22, 42, 76, 112]);
/// // disk 2: 56 has two parity disks, 73 one
/// assert_eq!(equations(Edition::First, &[4, 3, 7, 0, 11, 0, 13, 0], 2, &mut list)?, 4);
/// assert_eq!(list, [19, 73, 56, 98]);
/// # Ok::<(), bridgecrumb::Error>(())
/// ```
pub fn equations(edition: Edition, card: &[u8], disk: usize, out: &mut [u32]) -> Result<usize, Error> {
    ffi::equations(edition, card, disk, out)
}

/// Takes a card, a disk and a set of lost disks; the disk counts as lost, whether the set has it or not. Answers the equation
/// among the survivors whose disks have the least total wear: of those that [`equations`] lists for the disk and that hold no
/// lost disk, the first of least wear in the list's order. No equation among the survivors totals less. The loss may be
/// fatal, so long as it leaves the disk determined.
///
/// Refuses [the card's](crate#editions), then 8, then 9, then 11 exactly where no equation of the disk is among the
/// survivors. Writes nothing.
///
/// ```
/// use bridgecrumb::{least_wear, Edition, Error};
/// // C2 of document 01: disk 0's equations are 22, 42, 76 and 112; now disk 1, which is in the first two, is tired
/// let card = [2, 4, 3, 7, 0, 11, 0, 13, 0, 1, 9, 1, 1, 1, 1, 1];
/// assert_eq!(least_wear(Edition::Second, &card, 0, 0)?, 76);
/// assert_eq!(least_wear(Edition::Second, &card, 0, 0b100)?, 112);
/// assert_eq!(least_wear(Edition::Second, &card, 0, 0b1_0100)?, 42);
/// // edition 1 has every wear 1, so that it is the first listed
/// assert_eq!(least_wear(Edition::First, &card[1..9], 0, 0)?, 22);
/// // C8's fatal set leaves disk 0 determined, and disk 1 not
/// assert_eq!(least_wear(Edition::Second, &card, 0, 14)?, 112);
/// assert_eq!(least_wear(Edition::Second, &card, 1, 14), Err(Error::Fatal));
/// # Ok::<(), Error>(())
/// ```
pub fn least_wear(edition: Edition, card: &[u8], disk: usize, lost: u32) -> Result<u32, Error> {
    // a set of disks, so it has at most 32 bits
    Ok(ffi::least_wear(edition, card, disk, lost)? as u32)
}
