//! The definitions, word by word and set by set.

use super::Code;

/// Do two different data words agree on every disk outside the set?
pub fn fatal(code: &Code, set: u32) -> bool {
    let differ_inside = |x: usize, y: usize| (code.held[x] ^ code.held[y]) & !set == 0;
    (0..code.held.len()).any(|x| (0..x).any(|y| differ_inside(x, y)))
}

/// The disks on which two data words differ that agree on every disk outside the set.
pub fn undetermined(code: &Code, set: u32) -> u32 {
    let mut differing = 0;
    for x in 0..code.held.len() {
        for y in 0..x {
            let differ = code.held[x] ^ code.held[y];
            if differ & !set == 0 {
                differing |= differ;
            }
        }
    }
    differing
}

/// The sets with the property of which no proper subset has it.
fn minimal(has: &[bool]) -> Vec<u32> {
    let smaller_inside = |set: usize| (0..set).any(|inner| inner & set == inner && has[inner]);
    (0..has.len()).filter(|&set| has[set] && !smaller_inside(set)).map(|set| set as u32).collect()
}

/// The fatal sets with no fatal proper subset, in no particular order.
pub fn minimal_erasures(code: &Code) -> Vec<u32> {
    let all_fatal: Vec<bool> = (0..=code.disks()).map(|set| fatal(code, set)).collect();
    minimal(&all_fatal)
}

/// Is this a set without the disk whose XOR equals the disk for every data word?
pub fn equation(code: &Code, disk: usize, set: u32) -> bool {
    let xor = |held: u32| (0..code.n()).filter(|d| set >> d & 1 == 1).fold(0, |sum, d| sum ^ (held >> d & 1));
    set >> disk & 1 == 0 && code.held.iter().all(|&held| xor(held) == held >> disk & 1)
}

/// The disk's equations with no smaller one inside, in no particular order.
pub fn equations(code: &Code, disk: usize) -> Vec<u32> {
    let all: Vec<bool> = (0..=code.disks()).map(|set| equation(code, disk, set)).collect();
    minimal(&all)
}

/// The data words for which every disk that is not lost holds its bit of `bits`.
pub fn agreeing(code: &Code, lost: u32, bits: u32) -> Vec<usize> {
    (0..code.held.len()).filter(|&word| (code.held[word] ^ bits) & !lost == 0).collect()
}
