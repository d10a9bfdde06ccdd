//! Each call with slices and arrays lent to it, and its answer taken apart.

use super::*;
use crate::Edition;

/// What the archive calls an edition: whether it is the second.
fn second(edition: Edition) -> bool {
    edition == Edition::Second
}

pub fn card_read(
    edition: Edition,
    card: &[u8],
    counts: &mut [usize; 2],
    columns: &mut [u16; 16],
    wears: &mut [u8; 32],
) -> Result<usize, Error> {
    let (second, wears) = (second(edition), wears.as_mut_ptr());
    // SAFETY: the card's length is its own; 2 counts, 16 columns and 32 wears are written, and the arrays have as many
    taken(unsafe {
        bridgecrumb_card_read(second, card.as_ptr(), card.len(), counts.as_mut_ptr(), columns.as_mut_ptr(), wears)
    })
}

pub fn card_write(
    edition: Edition,
    k: usize,
    m: usize,
    columns: &[u16],
    wears: &[u8],
    out: &mut [u8],
) -> Result<usize, Error> {
    // SAFETY: each slice goes with its own length, whatever k and m are, and `out` is lent to nobody else
    taken(unsafe {
        bridgecrumb_card_write(
            second(edition),
            k,
            m,
            columns.as_ptr(),
            columns.len(),
            wears.as_ptr(),
            wears.len(),
            out.as_mut_ptr(),
            out.len(),
        )
    })
}

pub fn card_up(card: &[u8], out: &mut [u8]) -> Result<usize, Error> {
    // SAFETY: each slice goes with its own length, and `out` is lent to nobody else
    taken(unsafe { bridgecrumb_card_up(card.as_ptr(), card.len(), out.as_mut_ptr(), out.len()) })
}

pub fn card_down(card: &[u8], out: &mut [u8]) -> Result<usize, Error> {
    // SAFETY: each slice goes with its own length, and `out` is lent to nobody else
    taken(unsafe { bridgecrumb_card_down(card.as_ptr(), card.len(), out.as_mut_ptr(), out.len()) })
}

pub fn card_stepped(d: usize, m: usize, k: usize, out: &mut [u8]) -> Result<usize, Error> {
    // SAFETY: the slice goes with its own length, whatever m is, and is lent to nobody else
    taken(unsafe { bridgecrumb_card_stepped(d, m, k, out.as_mut_ptr(), out.len()) })
}

pub fn alike(edition: Edition, card: &[u8], other_edition: Edition, other: &[u8]) -> Result<usize, Error> {
    let (second, other_second) = (second(edition), second(other_edition));
    // SAFETY: each slice goes with its own length; nothing is written, so the cards may be the same slice
    taken(unsafe { bridgecrumb_alike(second, card.as_ptr(), card.len(), other_second, other.as_ptr(), other.len()) })
}

pub fn encode(edition: Edition, card: &[u8], strip_len: usize, stripe: &mut [u8]) -> Result<usize, Error> {
    // SAFETY: each slice goes with its own length, whatever strip_len is, and `stripe` is lent to nobody else
    taken(unsafe {
        bridgecrumb_encode(second(edition), card.as_ptr(), card.len(), strip_len, stripe.as_mut_ptr(), stripe.len())
    })
}

pub fn verdict(edition: Edition, card: &[u8], set: u32) -> Result<usize, Error> {
    // SAFETY: the card's length is its own; nothing is written
    taken(unsafe { bridgecrumb_verdict(second(edition), card.as_ptr(), card.len(), set) })
}

pub fn list(edition: Edition, card: &[u8], out: &mut [u32], vector: &mut [usize; 17]) -> Result<usize, Error> {
    // SAFETY: each slice goes with its own length; 17 counts are written, and the array has as many
    taken(unsafe {
        bridgecrumb_list(second(edition), card.as_ptr(), card.len(), out.as_mut_ptr(), out.len(), vector.as_mut_ptr())
    })
}

pub fn equations(edition: Edition, card: &[u8], disk: usize, out: &mut [u32]) -> Result<usize, Error> {
    // SAFETY: each slice goes with its own length, and `out` is lent to nobody else
    taken(unsafe {
        bridgecrumb_equations(second(edition), card.as_ptr(), card.len(), disk, out.as_mut_ptr(), out.len())
    })
}

pub fn least_wear(edition: Edition, card: &[u8], disk: usize, lost: u32) -> Result<usize, Error> {
    // SAFETY: the card's length is its own; nothing is written
    taken(unsafe { bridgecrumb_least_wear(second(edition), card.as_ptr(), card.len(), disk, lost) })
}

pub fn rebuild(edition: Edition, card: &[u8], strip_len: usize, lost: u32, stripe: &mut [u8]) -> Result<usize, Error> {
    // SAFETY: each slice goes with its own length, whatever strip_len is, and `stripe` is lent to nobody else
    taken(unsafe {
        bridgecrumb_rebuild(
            second(edition),
            card.as_ptr(),
            card.len(),
            strip_len,
            lost,
            stripe.as_mut_ptr(),
            stripe.len(),
        )
    })
}

pub fn partial_rebuild(
    edition: Edition,
    card: &[u8],
    strip_len: usize,
    lost: u32,
    stripe: &mut [u8],
) -> Result<usize, Error> {
    // SAFETY: each slice goes with its own length, whatever strip_len is, and `stripe` is lent to nobody else
    taken(unsafe {
        bridgecrumb_partial_rebuild(
            second(edition),
            card.as_ptr(),
            card.len(),
            strip_len,
            lost,
            stripe.as_mut_ptr(),
            stripe.len(),
        )
    })
}

pub fn turn(
    edition: Edition,
    card: &[u8],
    strip_len: usize,
    r: u32,
    stripe: &[u8],
    out: &mut [u8],
) -> Result<usize, Error> {
    // SAFETY: each slice goes with its own length, whatever strip_len is, and `out` is lent to nobody else
    taken(unsafe {
        bridgecrumb_turn(
            second(edition),
            card.as_ptr(),
            card.len(),
            strip_len,
            r,
            stripe.as_ptr(),
            stripe.len(),
            out.as_mut_ptr(),
            out.len(),
        )
    })
}

pub fn turn_back(
    edition: Edition,
    card: &[u8],
    strip_len: usize,
    r: u32,
    stripe: &[u8],
    out: &mut [u8],
) -> Result<usize, Error> {
    // SAFETY: each slice goes with its own length, whatever strip_len is, and `out` is lent to nobody else
    taken(unsafe {
        bridgecrumb_turn_back(
            second(edition),
            card.as_ptr(),
            card.len(),
            strip_len,
            r,
            stripe.as_ptr(),
            stripe.len(),
            out.as_mut_ptr(),
            out.len(),
        )
    })
}

pub fn rebuild_turned(
    edition: Edition,
    card: &[u8],
    strip_len: usize,
    r: u32,
    slots: u32,
    stripe: &mut [u8],
) -> Result<usize, Error> {
    // SAFETY: each slice goes with its own length, whatever strip_len is, and `stripe` is lent to nobody else
    taken(unsafe {
        bridgecrumb_rebuild_turned(
            second(edition),
            card.as_ptr(),
            card.len(),
            strip_len,
            r,
            slots,
            stripe.as_mut_ptr(),
            stripe.len(),
        )
    })
}

pub fn quick_repair(
    edition: Edition,
    card: &[u8],
    strip_len: usize,
    lost: &[u32],
    budget: usize,
    tray: &mut [u8],
    left: &mut [u32; 8],
) -> Result<usize, Error> {
    // SAFETY: each slice goes with its own length, whatever strip_len is; 8 sets are written, and the array has as many
    taken(unsafe {
        bridgecrumb_quick_repair(
            second(edition),
            card.as_ptr(),
            card.len(),
            strip_len,
            lost.as_ptr(),
            lost.len(),
            budget,
            tray.as_mut_ptr(),
            tray.len(),
            left.as_mut_ptr(),
        )
    })
}

pub fn update(
    edition: Edition,
    card: &[u8],
    strip_len: usize,
    stripe: &mut [u8],
    disk: usize,
    new_strip: &[u8],
) -> Result<usize, Error> {
    // SAFETY: each slice goes with its own length, whatever strip_len is, and `stripe` is lent to nobody else
    taken(unsafe {
        bridgecrumb_update(
            second(edition),
            card.as_ptr(),
            card.len(),
            strip_len,
            stripe.as_mut_ptr(),
            stripe.len(),
            disk,
            new_strip.as_ptr(),
            new_strip.len(),
        )
    })
}

pub fn record_write(card: &[u8], strip_len: usize, lost: u32, stripe: &[u8], out: &mut [u8]) -> Result<usize, Error> {
    // SAFETY: each slice goes with its own length, whatever strip_len is, and `out` is lent to nobody else
    taken(unsafe {
        bridgecrumb_record_write(
            card.as_ptr(),
            card.len(),
            strip_len,
            lost,
            stripe.as_ptr(),
            stripe.len(),
            out.as_mut_ptr(),
            out.len(),
        )
    })
}

pub fn record_read(file: &[u8], fields: &mut [usize; 4], columns: &mut [u16; 16]) -> Result<usize, Error> {
    // SAFETY: the file's length is its own; 4 fields and 16 columns are written, and the arrays have as many
    taken(unsafe { bridgecrumb_record_read(file.as_ptr(), file.len(), fields.as_mut_ptr(), columns.as_mut_ptr()) })
}

pub fn record_body(file: &[u8], disk: usize, place: &mut [usize; 2]) -> Result<usize, Error> {
    // SAFETY: the file's length is its own; 2 numbers are written, and the array has as many
    taken(unsafe { bridgecrumb_record_body(file.as_ptr(), file.len(), disk, place.as_mut_ptr()) })
}
