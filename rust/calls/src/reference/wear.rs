//! Document 02, request [10]: the equation among the survivors with the least total wear.

use super::{code, equations, literal, read_card, refusal, Card, Code, Refusal};

/// The sum of the wears of the set's disks.
pub fn total(wears: &[u8], set: u32) -> u32 {
    (0..wears.len()).filter(|disk| set >> disk & 1 == 1).map(|disk| u32::from(wears[disk])).sum()
}

/// The first of those that total least.
fn first_least(wears: &[u8], sets: impl Iterator<Item = u32>) -> Option<u32> {
    let mut best: Option<u32> = None;
    for set in sets {
        if best.map_or(true, |best| total(wears, set) < total(wears, best)) {
            best = Some(set);
        }
    }
    best
}

/// The call: of the listed equations without a lost disk, the disk itself being lost, the first in the list's order that totals least.
pub fn least_wear(card: &Card, disk: usize, lost: u32) -> Result<u32, Refusal> {
    let wears = read_card(card)?.wears;
    let code = code(card)?;
    if lost & !code.disks() != 0 {
        return refusal(8);
    }
    let list = equations(&code, disk)?;
    let lost = lost | 1 << disk;
    match first_least(&wears, list.iter().copied().filter(|equation| equation & lost == 0)) {
        Some(equation) => Ok(equation),
        None => refusal(11),
    }
}

/// The same out of all equations among the survivors, minimal or not, looked for among all sets of disks. One that is not minimal has
/// another inside, which totals less, since no wear is 0.
pub fn least_of_all(code: &Code, wears: &[u8], disk: usize, lost: u32) -> Option<u32> {
    let lost = lost | 1 << disk;
    let among = |set: &u32| set & lost == 0 && literal::equation(code, disk, *set);
    (0..=code.disks()).filter(among).min_by_key(|&set| code.order(wears, set))
}
