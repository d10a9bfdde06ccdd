//! Encoding and rebuilding: eight data words for each place of the strips, one for each bit of a byte.

use super::{code, literal, outline, quick, refusal, verdict, Card, Code, Refusal};
use std::collections::HashMap;
use std::rc::Rc;

/// Refusal 6.
pub fn check_length(strip_len: usize) -> Result<(), Refusal> {
    if !(1..=65536).contains(&strip_len) {
        return refusal(6);
    }
    Ok(())
}

/// Refusals 6, 8 and 7.
pub fn check(code: &Code, strip_len: usize, lost: u32, stripe_len: usize) -> Result<(), Refusal> {
    check_length(strip_len)?;
    if lost & !code.disks() != 0 {
        return refusal(8);
    }
    if stripe_len != code.n() * strip_len {
        return refusal(7);
    }
    Ok(())
}

/// The stripe with the parity strips that its data strips give.
pub fn encoded(code: &Code, strip_len: usize, stripe: &[u8]) -> Vec<u8> {
    let mut after = stripe.to_vec();
    for j in 0..code.m {
        for t in 0..strip_len {
            let mut sum = 0;
            for i in 0..code.k {
                if code.columns[j] >> i & 1 == 1 {
                    sum ^= stripe[i * strip_len + t];
                }
            }
            after[(code.k + j) * strip_len + t] = sum;
        }
    }
    after
}

/// The encoder: the stripe afterwards.
pub fn encode(card: &Card, strip_len: usize, stripe: &[u8]) -> Result<Vec<u8>, Refusal> {
    let code = outline(card)?;
    check(&code, strip_len, 0, stripe.len())?;
    Ok(encoded(&code, strip_len, stripe))
}

/// What the disks have at bit `bit` of place t: bit d for disk d.
fn bits_at(code: &Code, strip_len: usize, stripe: &[u8], t: usize, bit: usize) -> u32 {
    (0..code.n()).map(|disk| u32::from(stripe[disk * strip_len + t] >> bit & 1) << disk).sum()
}

/// What a data word that agrees with the survivors holds, 12 where none does. Where several do, they differ on the undetermined disks and on no
/// other; there is only one where the set is not fatal.
fn told_by(code: &Code, undetermined: u32, agreeing: &[usize]) -> Result<u32, Refusal> {
    let first = match agreeing.first() {
        Some(&word) => code.held[word],
        None => return refusal(12),
    };
    let differing = agreeing.iter().fold(0, |sum, &word| sum | (code.held[word] ^ first));
    assert_eq!(differing, undetermined, "contents that agree with the survivors differ elsewhere");
    Ok(first)
}

/// Both rebuilders once it is known which lost disks are undetermined: the strips of the others are restored.
fn restored(code: &Code, strip_len: usize, lost: u32, undetermined: u32, stripe: &[u8]) -> Result<Vec<u8>, Refusal> {
    let ordered = if code.literal() { None } else { Some(agreeing(code, lost)) };
    let agreeing = |bits: u32| match &ordered {
        None => literal::agreeing(code, lost, bits),
        Some(ordered) => ordered.words(bits),
    };
    let determined: Vec<usize> = (0..code.n()).filter(|disk| (lost & !undetermined) >> disk & 1 == 1).collect();
    let mut after = stripe.to_vec();
    for disk in &determined {
        after[disk * strip_len..(disk + 1) * strip_len].fill(0);
    }
    // many words may agree, so they are gone through once for what the survivors have and not at each place
    let mut known = HashMap::new();
    for t in 0..strip_len {
        for bit in 0..8 {
            let bits = bits_at(code, strip_len, stripe, t, bit) & !lost;
            let told = known.entry(bits).or_insert_with(|| told_by(code, undetermined, &agreeing(bits)));
            let held = (*told)?;
            for disk in &determined {
                after[disk * strip_len + t] |= ((held >> disk & 1) as u8) << bit;
            }
        }
    }
    Ok(after)
}

/// The data words that agree with these survivors, kept for the next stripe with the same loss.
fn agreeing(code: &Code, lost: u32) -> Rc<quick::Agreeing> {
    let mut known = code.agreeing.borrow_mut();
    match &*known {
        Some((set, agreeing)) if *set == lost => agreeing.clone(),
        _ => {
            let agreeing = Rc::new(quick::Agreeing::new(code, lost));
            *known = Some((lost, agreeing.clone()));
            agreeing
        }
    }
}

/// The rebuilder: the answer, and the stripe afterwards.
pub fn rebuild(card: &Card, strip_len: usize, lost: u32, stripe: &[u8]) -> Result<(usize, Vec<u8>), Refusal> {
    check(&outline(card)?, strip_len, lost, stripe.len())?;
    let code = code(card)?;
    if verdict(&code, lost)? != 0 {
        return refusal(11);
    }
    Ok((lost.count_ones() as usize, restored(&code, strip_len, lost, 0, stripe)?))
}

/// The partial rebuild: the undetermined disks, and the stripe afterwards.
pub fn partial_rebuild(card: &Card, strip_len: usize, lost: u32, stripe: &[u8]) -> Result<(u32, Vec<u8>), Refusal> {
    check(&outline(card)?, strip_len, lost, stripe.len())?;
    let code = code(card)?;
    let undetermined = verdict(&code, lost)?;
    Ok((undetermined, restored(&code, strip_len, lost, undetermined, stripe)?))
}
