//! Document 02, request [7]: the Stepped Combination card, its parity sets looked up among all numbers.

use super::cards::check_counts;
use super::{refusal, write_card, Edition, Refusal, Said};

/// The bounds on k, as document 002, III-C, prints them. With m = 1 no k is within them, says document 02.
pub fn within_bounds(d: usize, m: usize, k: usize) -> bool {
    let (m, k, power) = (m as i64, k as i64, |exponent: i64| 1 << exponent);
    match d {
        _ if m == 1 => false,
        3 => power(m - 1) - m < k && k <= power(m) - m - 1,
        _ => power(m - 2) - m + 1 < k && k <= power(m - 1) - m,
    }
}

/// The parity sets in the order in which data disks take them: sizes d - 1 and up, by 1 for d = 3 and by 2 for d = 4, smaller size first,
/// then smaller number.
pub fn parity_sets(d: usize, m: usize) -> Vec<u32> {
    let step = if d == 3 { 1 } else { 2 };
    let of_size = |size: usize| (0..1 << m).filter(move |set: &u32| set.count_ones() as usize == size);
    (d - 1..=m).step_by(step).flat_map(of_size).collect()
}

/// The columns of m parity disks where data disk i takes the i-th of these parity sets.
pub fn columns(m: usize, sets: &[u32]) -> Vec<u16> {
    let named = |j: usize| (0..sets.len()).filter(move |&i| sets[i] >> j & 1 == 1).map(|i| 1 << i);
    (0..m).map(|j| named(j).sum()).collect()
}

/// The call: what it puts into a buffer of this length.
pub fn card(d: usize, m: usize, k: usize, out_len: usize) -> Result<Vec<u8>, Refusal> {
    check_counts(k, m)?;
    if d != 3 && d != 4 {
        return refusal(20);
    }
    if !within_bounds(d, m, k) {
        return refusal(21);
    }
    let columns = columns(m, &parity_sets(d, m)[..k]);
    write_card(Edition::First, &Said { k, m, columns, wears: Vec::new() }, out_len)
}
