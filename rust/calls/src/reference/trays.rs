//! Document 02, request [1]: quick repair, step by step, as it says.

use super::{outline, refusal, strips, Card, Code, Refusal};

/// The members of parity disk k + j's check: it and its data disks.
fn check(code: &Code, j: usize) -> Vec<usize> {
    let data = (0..code.k).filter(|i| code.columns[j] >> i & 1 == 1);
    data.chain([code.k + j]).collect()
}

/// The step of the rule: the lowest lost disk that is the only lost member of some check, and the others of the lowest such check.
fn step(code: &Code, lost: u32) -> Option<(usize, Vec<usize>)> {
    let is_lost = |disk: &usize| lost >> disk & 1 == 1;
    (0..code.n()).filter(is_lost).find_map(|disk| {
        let mut checks = (0..code.m).map(|j| check(code, j));
        let lone = checks.find(|members| members.iter().copied().filter(is_lost).eq([disk]))?;
        Some((disk, lone.into_iter().filter(|&member| member != disk).collect()))
    })
}

/// Quick repair: the steps made, what is left of each set, and the tray afterwards.
pub fn quick_repair(
    card: &Card,
    strip_len: usize,
    sets: &[u32],
    budget: usize,
    tray: &[u8],
) -> Result<(usize, Vec<u32>, Vec<u8>), Refusal> {
    let code = outline(card)?;
    strips::check_length(strip_len)?;
    if !(1..=8).contains(&sets.len()) {
        return refusal(17);
    }
    if sets.iter().any(|set| set & !code.disks() != 0) {
        return refusal(8);
    }
    let stripe_len = code.n() * strip_len;
    if tray.len() != sets.len() * stripe_len {
        return refusal(7);
    }
    let (mut steps, mut left, mut tray) = (0, sets.to_vec(), tray.to_vec());
    for (set, stripe) in left.iter_mut().zip(tray.chunks_mut(stripe_len)) {
        while let Some((disk, others)) = step(&code, *set).filter(|_| steps < budget) {
            for t in 0..strip_len {
                stripe[disk * strip_len + t] = others.iter().fold(0, |sum, other| sum ^ stripe[other * strip_len + t]);
            }
            *set &= !(1 << disk);
            steps += 1;
        }
    }
    left.resize(8, 0);
    Ok((steps, left, tray))
}
