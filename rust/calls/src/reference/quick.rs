//! The same answers as `literal` gives, through the data words (or the sets of parity disks) alone.
//!
//! XOR of two data words holds on each disk the XOR of what they hold, so two words agree on a disk exactly
//! where their XOR holds 0.

use super::Code;

/// The disks that hold 1 for some data word that holds 0 on every disk outside the set.
pub fn undetermined(code: &Code, set: u32) -> u32 {
    code.held.iter().filter(|&held| held & !set == 0).fold(0, |sum, held| sum | held)
}

/// Fatal by the definition with two different data words: sorted by what the survivors hold, two equal ones are neighbours.
pub fn fatal_by_two_words(code: &Code, set: u32) -> bool {
    let mut left: Vec<u32> = code.held.iter().map(|held| held & !set).collect();
    left.sort_unstable();
    left.windows(2).any(|two| two[0] == two[1])
}

/// The undetermined disks by the definition with two data words: sorted by what the survivors hold, those that agree there stand together,
/// and a disk on which two of these differ is one on which two neighbours do.
pub fn undetermined_by_two_words(code: &Code, set: u32) -> u32 {
    let mut words = code.held.clone();
    words.sort_unstable_by_key(|held| held & !set);
    let alike = words.windows(2).filter(|two| two[0] & !set == two[1] & !set);
    alike.fold(0, |sum, two| sum | (two[0] ^ two[1]))
}

/// The chosen sets with no other chosen one inside, where place x of `sets` has the set that is told by its part x: a set inside another
/// has its part inside the other's, so these alone are tried.
fn minimal(sets: &[u32], chosen: impl Fn(u32) -> bool) -> Vec<u32> {
    let holds_another = |part: usize| {
        let mut inside = (part - 1) & part;
        while inside != 0 {
            if sets[inside] & !sets[part] == 0 && chosen(sets[inside]) {
                return true;
            }
            inside = (inside - 1) & part;
        }
        false
    };
    (1..sets.len()).filter(|&part| chosen(sets[part]) && !holds_another(part)).map(|part| sets[part]).collect()
}

/// A set is fatal where it holds all disks that hold 1 for some data word, which is their data part; so these sets have the minimal ones.
pub fn minimal_erasures(code: &Code) -> Vec<u32> {
    minimal(&code.held, |_| true)
}

/// The data disks of an equation, its disk counted with it, follow from its parity disks: those that an odd number of their
/// columns has.
pub fn equations(code: &Code, disk: usize) -> Vec<u32> {
    let with_data = |parities: u32| {
        let chosen = (0..code.m).filter(|j| parities >> j & 1 == 1);
        chosen.fold(parities << code.k, |sum, j| sum ^ u32::from(code.columns[j]))
    };
    let sets: Vec<u32> = (0..1 << code.m).map(with_data).collect();
    minimal(&sets, |set| set >> disk & 1 == 1).iter().map(|set| set ^ 1 << disk).collect()
}

/// The data words, ordered by what the survivors hold for them.
#[derive(Debug)]
pub struct Agreeing {
    /// What the survivors hold, then the word, as one number.
    by_left: Vec<u64>,
}

impl Agreeing {
    pub fn new(code: &Code, lost: u32) -> Agreeing {
        let left = code.held.iter().map(|held| u64::from(held & !lost));
        let mut by_left: Vec<u64> = left.zip(0..).map(|(left, word)| left << 32 | word).collect();
        by_left.sort_unstable();
        Agreeing { by_left }
    }

    /// The data words for which the survivors hold these bits; there are none on other disks.
    pub fn words(&self, bits: u32) -> Vec<usize> {
        let start = self.by_left.partition_point(|both| both >> 32 < u64::from(bits));
        let here = self.by_left[start..].iter().take_while(|&both| both >> 32 == u64::from(bits));
        here.map(|both| (both & 0xffff_ffff) as usize).collect()
    }
}
