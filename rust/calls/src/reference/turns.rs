//! Document 02, request [11]: turned stripes, strip by strip, as it says.

use super::{outline, refusal, strips, Card, Refusal};

/// The slot in which stripe r stores the disk's strip.
pub fn slot(n: usize, r: u32, disk: usize) -> usize {
    ((disk as u64 + u64::from(r)) % n as u64) as usize
}

/// The disks of the lost slots.
pub fn lost_disks(n: usize, r: u32, slots: u32) -> u32 {
    (0..n).filter(|&disk| slots >> slot(n, r, disk) & 1 == 1).map(|disk| 1 << disk).sum()
}

/// The slots of the lost disks.
pub fn lost_slots(n: usize, r: u32, disks: u32) -> u32 {
    (0..n).filter(|&disk| disks >> disk & 1 == 1).map(|disk| 1 << slot(n, r, disk)).sum()
}

/// The stripe of n strips, turned.
pub fn turned(n: usize, strip_len: usize, r: u32, stripe: &[u8]) -> Vec<u8> {
    let mut after = stripe.to_vec();
    for disk in 0..n {
        for t in 0..strip_len {
            after[slot(n, r, disk) * strip_len + t] = stripe[disk * strip_len + t];
        }
    }
    after
}

/// The turned stripe of n strips, turned back.
pub fn turned_back(n: usize, strip_len: usize, r: u32, turned: &[u8]) -> Vec<u8> {
    let mut after = turned.to_vec();
    for disk in 0..n {
        for t in 0..strip_len {
            after[disk * strip_len + t] = turned[slot(n, r, disk) * strip_len + t];
        }
    }
    after
}

/// The card's refusals, 6, and 7 for either buffer; else n.
fn check(card: &Card, strip_len: usize, lens: [usize; 2]) -> Result<usize, Refusal> {
    let n = outline(card)?.n();
    strips::check_length(strip_len)?;
    if lens != [n * strip_len; 2] {
        return refusal(7);
    }
    Ok(n)
}

/// The call that turns a stripe: what the other buffer, of this length, has afterwards.
pub fn turn(card: &Card, strip_len: usize, r: u32, stripe: &[u8], out_len: usize) -> Result<Vec<u8>, Refusal> {
    let n = check(card, strip_len, [stripe.len(), out_len])?;
    Ok(turned(n, strip_len, r, stripe))
}

/// The call that turns a stripe back.
pub fn turn_back(card: &Card, strip_len: usize, r: u32, stripe: &[u8], out_len: usize) -> Result<Vec<u8>, Refusal> {
    let n = check(card, strip_len, [stripe.len(), out_len])?;
    Ok(turned_back(n, strip_len, r, stripe))
}

/// The rebuilder of a turned stripe: the answer, and the turned stripe afterwards. It is turned back, rebuilt and turned again.
pub fn rebuild_turned(
    card: &Card,
    strip_len: usize,
    r: u32,
    slots: u32,
    stripe: &[u8],
) -> Result<(usize, Vec<u8>), Refusal> {
    let code = outline(card)?;
    strips::check(&code, strip_len, slots, stripe.len())?;
    let n = code.n();
    let back = turned_back(n, strip_len, r, stripe);
    let (restored, after) = strips::rebuild(card, strip_len, lost_disks(n, r, slots), &back)?;
    Ok((restored, turned(n, strip_len, r, &after)))
}
