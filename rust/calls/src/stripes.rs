//! Strip lengths and stripes.

use crate::cards::disks_of;
use crate::choice::Choice;
use crate::reference::strips::encoded;
use crate::reference::{outline, Card, Code};

/// Both sides of the lengths at which blocks end.
const COMMON: [usize; 21] = [1, 1, 2, 3, 4, 7, 8, 9, 15, 16, 17, 31, 32, 33, 63, 64, 65, 127, 128, 129, 257];
pub const LONG: [usize; 16] =
    [255, 256, 600, 1000, 1023, 1024, 1025, 4095, 4096, 4097, 8191, 8192, 8193, 32767, 65535, 65536];
/// The longest strip that is no rare one.
pub const COMMON_LEN: usize = 300;

/// A strip length: short and right mostly, else long, or wrong by a little or by far.
pub fn any_strip_len(choice: &mut Choice) -> usize {
    if let Some(strip_len) = choice.strip_len {
        return strip_len;
    }
    match choice.below(16) {
        0 => choice.pick(&[0, 65537, 65538, 131_072]),
        1 => match choice.far_number() {
            right @ 1..=65536 => right + 65536,
            wrong => wrong,
        },
        2 if choice.rare && choice.one_in(8) => choice.pick(&LONG),
        3..=5 => 1 + choice.below(COMMON_LEN),
        _ => choice.pick(&COMMON),
    }
}

/// A stripe's length: mostly right; where the strips are too long, also what the product is in 16 bits, which near 2^62 and 2^63 is
/// what it is in 64.
pub fn any_stripe_len(choice: &mut Choice, n: usize, strip_len: usize) -> usize {
    let right = n.wrapping_mul(strip_len);
    match strip_len {
        0..=65537 if choice.strip_len.is_some() => right,
        0..=65536 => choice.length(right).min(32 * 65536),
        65537 if choice.rare => right,
        _ => choice.pick(&[0, n, right % 65536]),
    }
}

/// Junk in the lost strips.
pub fn lose(choice: &mut Choice, lost: u32, strip_len: usize, stripe: &mut [u8]) {
    for (disk, strip) in stripe.chunks_mut(strip_len).enumerate() {
        if lost >> disk & 1 == 1 {
            strip.copy_from_slice(&choice.bytes(strip_len));
        }
    }
}

/// A stripe of the code: encoded, or encoded and a byte spoiled, the last one of a strip more often, or any bytes; lost strips have any.
pub fn stripe_of(choice: &mut Choice, code: &Code, strip_len: usize, lost: u32) -> Vec<u8> {
    let kind = choice.below(8);
    let (at, end, bit) = (choice.number() as usize, choice.one_in(4), choice.below(8));
    let any = choice.bytes(code.n() * strip_len);
    if kind == 0 {
        return any;
    }
    let mut stripe = encoded(code, strip_len, &any);
    lose(choice, lost, strip_len, &mut stripe);
    if kind < 4 {
        let at = at % stripe.len();
        stripe[if end { at / strip_len * strip_len + strip_len - 1 } else { at }] ^= 1 << bit;
    }
    stripe
}

/// A stripe of about the right length for a card.
pub fn any_stripe(choice: &mut Choice, card: &Card, strip_len: usize, lost: u32) -> Vec<u8> {
    let n = disks_of(card);
    let len = any_stripe_len(choice, n, strip_len);
    match outline(card) {
        Ok(code) if (1..=65536).contains(&strip_len) && len == n * strip_len => {
            stripe_of(choice, &code, strip_len, lost)
        }
        _ => choice.bytes(len),
    }
}
