//! Document 02, request [4]: one strip rewritten, byte by byte, as it says.

use super::{outline, refusal, strips, Card, Code, Refusal};

/// Whether the new strip of a data disk has to do with this disk: the disk itself, or a parity disk whose column names it.
fn changes(code: &Code, disk: usize, other: usize) -> bool {
    other == disk || other >= code.k && code.columns[other - code.k] >> disk & 1 == 1
}

/// The update: how many disks it has to do with, and the stripe afterwards.
pub fn update(
    card: &Card,
    strip_len: usize,
    stripe: &[u8],
    disk: usize,
    new_strip: &[u8],
) -> Result<(usize, Vec<u8>), Refusal> {
    let code = outline(card)?;
    strips::check_length(strip_len)?;
    if disk >= code.n() {
        return refusal(9);
    }
    if disk >= code.k {
        return refusal(18);
    }
    if stripe.len() != code.n() * strip_len {
        return refusal(7);
    }
    if new_strip.len() != strip_len {
        return refusal(19);
    }
    let mut after = stripe.to_vec();
    for other in (0..code.n()).filter(|&other| changes(&code, disk, other)) {
        for t in 0..strip_len {
            let (old, new) = (stripe[disk * strip_len + t], new_strip[t]);
            after[other * strip_len + t] = stripe[other * strip_len + t] ^ old ^ new;
        }
    }
    let value = (0..code.n()).filter(|&other| changes(&code, disk, other)).count();
    Ok((value, after))
}
