//! Document 01's definitions, with document 02's order of equations, by plain methods that share nothing with the engine.
use crate::codes::{size, Code};

/// What the disks hold for a data word: bit i is what disk i holds.
fn held(code: &Code, word: u32) -> u32 {
    let parity = |column: u16| (word & u32::from(column)).count_ones() % 2;
    let bits = code.columns.iter().enumerate().map(|(j, &column)| parity(column) << (code.k + j));
    word | bits.sum::<u32>()
}

/// For each set of disks, those on which two data words differ that agree on every disk outside it; the set is
/// fatal where there are any. All sets and all words are tried, so this is for small codes alone. Sorted,
/// words that agree stand together, and where two of them differ, two neighbours do.
pub fn undetermined_sets(code: &Code) -> Vec<u32> {
    let mut words: Vec<u32> = (0..1 << code.k).map(|word| held(code, word)).collect();
    let undetermined = |lost: u32| {
        words.sort_unstable_by_key(|word| word & !lost);
        let agreeing = words.windows(2).filter(|pair| pair[0] & !lost == pair[1] & !lost);
        agreeing.fold(0, |sum, pair| sum | (pair[0] ^ pair[1]))
    };
    (0..1 << code.n()).map(undetermined).collect()
}

/// The fatal sets with no fatal proper subset, every subset tried: smaller size first, then smaller data
/// part.
pub fn literal_list(code: &Code, undetermined: &[u32]) -> Vec<u32> {
    let fatal = |set: u32| undetermined[set as usize] != 0;
    let minimal = |set: u32| {
        let mut inside = set;
        fatal(set)
            && loop {
                if inside == 0 {
                    break true;
                }
                inside = (inside - 1) & set;
                if fatal(inside) {
                    break false;
                }
            }
    };
    let mut list: Vec<u32> = (0..1 << code.n()).filter(|&set| minimal(set)).collect();
    sort(code, &mut list);
    list
}

pub fn sort(code: &Code, list: &mut [u32]) {
    list.sort_by_key(|&set| (size(set), code.data_part(set)));
}

/// The same list for any code. Two words agree outside a set exactly where their difference is 0 there, so
/// a set is fatal exactly where it holds all disks on which some word other than 0 is not 0. Of these
/// supports, all 2^k - 1 of them, the ones that hold no other are the minimal erasures. They are tried
/// smaller size first, so each is compared with the smaller ones that were kept: a support that holds any
/// other holds a kept one.
pub fn list_by_words(code: &Code) -> Vec<u32> {
    let mut supports: Vec<u32> = (1..1 << code.k).map(|word| held(code, word)).collect();
    sort(code, &mut supports);
    let mut kept: Vec<u32> = Vec::new();
    for support in supports {
        if !holds_one(support, &kept) {
            kept.push(support);
        }
    }
    kept
}

/// Does some set of the list lie inside? In runs, which compilers turn into wide comparisons.
fn holds_one(set: u32, list: &[u32]) -> bool {
    list.chunks(64).any(|run| run.iter().fold(false, |found, inside| found | (inside & !set == 0)))
}

/// The engine's list against the second method, order included; where the code is small also list and
/// verdicts against the definitions. With few parity disks, the equations of all disks too.
pub fn compare(code: &Code) {
    let listed = code.listed();
    assert_eq!(listed, list_by_words(code), "{:?}", code);
    if code.n() + code.k <= 21 {
        let undetermined = undetermined_sets(code);
        assert_eq!(listed, literal_list(code, &undetermined), "{:?}", code);
        for (set, &expected) in undetermined.iter().enumerate() {
            assert_eq!(code.undetermined(set as u32), expected, "{:?}, set {}", code, set);
        }
    }
    if code.m() <= 8 {
        let zero_sets = zero_sets(code);
        for disk in 0..code.n() {
            assert_eq!(code.equations(disk), equations_by_checks(code, disk, &zero_sets), "{:?}, disk {}", code, disk);
        }
    }
}

/// The sets of disks, other than the empty one, whose XOR is 0 for every data word: the XORs of checks, a
/// check being a parity disk with its data disks.
fn zero_sets(code: &Code) -> Vec<u32> {
    let check = |j: usize| u32::from(code.columns[j]) | 1 << (code.k + j);
    let chosen = |choice: u32| (0..code.m()).filter(|j| choice >> j & 1 == 1).fold(0, |set, j| set ^ check(j));
    (1..1 << code.m()).map(chosen).collect()
}

/// The equations of a disk: the zero sets that hold it, without it, of which those that hold no other are
/// kept; in the order of the call.
fn equations_by_checks(code: &Code, disk: usize, zero_sets: &[u32]) -> Vec<u32> {
    let with = zero_sets.iter().filter(|&set| set >> disk & 1 == 1);
    let mut equations: Vec<u32> = with.map(|set| set & !(1 << disk)).collect();
    equations.sort_by_key(|&set| code.equation_order(set));
    let mut kept: Vec<u32> = Vec::new();
    for equation in equations {
        if !holds_one(equation, &kept) {
            kept.push(equation);
        }
    }
    kept
}

/// The size of the smallest equation of each disk.
pub fn shortest_equations(code: &Code) -> Vec<usize> {
    let zero_sets = zero_sets(code);
    let with = |disk: usize| zero_sets.iter().filter(move |&set| set >> disk & 1 == 1);
    (0..code.n()).map(|disk| with(disk).map(|&set| size(set) - 1).min().expect("a check with the disk")).collect()
}
