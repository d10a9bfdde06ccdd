//! The calls on turned stripes.

use crate::{ffi, Edition, Error};

/// Takes a card, the strips' length, the stripe's number r, the stripe and a second buffer of as many bytes; writes the
/// turned stripe into the buffer, disk i's strip into slot (i + r) modulo n. The stripe keeps its bytes, and what the buffer
/// had has no effect. Every r is accepted. [`turn_back`] undoes it.
///
/// Refuses [the card's](crate#editions), then 6, then 7 where the length of the stripe or of the buffer is not
/// `n * strip_len`. A refused call writes nothing.
///
/// ```
/// use bridgecrumb::{turn, Edition::First, Error};
/// let card = [4, 3, 7, 0, 11, 0, 13, 0];
/// // C7's stripe of document 01 as stripe 2 of a cabinet: the last two parities have come round to slots 0 and 1
/// let (stripe, mut turned) = ([0x11, 0x22, 0x44, 0x88, 0x77, 0xBB, 0xDD], [0; 7]);
/// assert_eq!(turn(First, &card, 1, 2, &stripe, &mut turned), Ok(()));
/// assert_eq!(turned, [0xBB, 0xDD, 0x11, 0x22, 0x44, 0x88, 0x77]);
/// // with seven disks stripe 9 is turned as stripe 2 is
/// assert_eq!(turn(First, &card, 1, 9, &stripe, &mut turned), Ok(()));
/// assert_eq!(turned, [0xBB, 0xDD, 0x11, 0x22, 0x44, 0x88, 0x77]);
/// assert_eq!(turn(First, &card, 1, 2, &stripe, &mut turned[1..]), Err(Error::BufferLength));
/// ```
pub fn turn(
    edition: Edition,
    card: &[u8],
    strip_len: usize,
    r: u32,
    stripe: &[u8],
    out: &mut [u8],
) -> Result<(), Error> {
    ffi::turn(edition, card, strip_len, r, stripe, out)?;
    Ok(())
}

/// Takes what [`turn`] takes, the stripe being turned; writes the stripe into the second buffer, what slot (i + r) modulo n
/// has as disk i's strip. The turned stripe keeps its bytes, and what the buffer had has no effect. Every r is accepted.
/// [`turn`] undoes it.
///
/// Refuses as [`turn`] does. A refused call writes nothing.
///
/// ```
/// use bridgecrumb::{turn_back, Edition::First};
/// let card = [4, 3, 7, 0, 11, 0, 13, 0];
/// let (turned, mut stripe) = ([0xBB, 0xDD, 0x11, 0x22, 0x44, 0x88, 0x77], [0; 7]);
/// assert_eq!(turn_back(First, &card, 1, 2, &turned, &mut stripe), Ok(()));
/// assert_eq!(stripe, [0x11, 0x22, 0x44, 0x88, 0x77, 0xBB, 0xDD]);
/// ```
pub fn turn_back(
    edition: Edition,
    card: &[u8],
    strip_len: usize,
    r: u32,
    stripe: &[u8],
    out: &mut [u8],
) -> Result<(), Error> {
    ffi::turn_back(edition, card, strip_len, r, stripe, out)?;
    Ok(())
}

/// Takes a card, the strips' length, the stripe's number r, the set of lost slots and the turned stripe; writes the lost
/// slots in place, each with the strip of its disk. Disk i is lost where slot (i + r) modulo n is. The other slots keep their
/// bytes. Answers how many slots are lost. Every r is accepted. Turned back afterwards, the stripe is the one that [`rebuild`]
/// leaves of the stripe turned back first, and the answer is its answer, 11 and 12 too.
///
/// Refuses [the card's](crate#editions), then 6, then 8 where the set has a slot of number n or above, then 7 where the
/// stripe's length is not `n * strip_len`, then 11 where the loss of the disks is fatal, then 12 where no data encodes to
/// what the surviving disks have. A refused call writes nothing.
///
/// [`rebuild`]: crate::rebuild
///
/// ```
/// use bridgecrumb::{rebuild_turned, Edition::First, Error};
/// let card = [4, 3, 7, 0, 11, 0, 13, 0];
/// // C8 of document 01 in stripe 5: disks 0 to 2 stand in slots 5, 6 and 0
/// let mut stripe = [0, 0x88, 0x77, 0xBB, 0xDD, 0, 0];
/// assert_eq!(rebuild_turned(First, &card, 1, 5, 0b110_0001, &mut stripe), Ok(3));
/// assert_eq!(stripe, [0x44, 0x88, 0x77, 0xBB, 0xDD, 0x11, 0x22]);
/// // C10's loss, disks 1 to 3, in slots 6, 0 and 1
/// assert_eq!(rebuild_turned(First, &card, 1, 5, 0b100_0011, &mut stripe), Err(Error::Fatal));
/// assert_eq!(rebuild_turned(First, &card, 1, 5, 0b1000_0000, &mut stripe), Err(Error::OutsideSet));
/// ```
pub fn rebuild_turned(
    edition: Edition,
    card: &[u8],
    strip_len: usize,
    r: u32,
    slots: u32,
    stripe: &mut [u8],
) -> Result<usize, Error> {
    ffi::rebuild_turned(edition, card, strip_len, r, slots, stripe)
}
