//! Document 000, section 4: a corpus is the set of all codes of one k and m, each data disk in some parity
//! disk and each parity disk with some data disk, and of codes that differ only by the numbering of data
//! disks and of parity disks just one.
use crate::codes::{first_place, Code};
use crate::plain::{compare, list_by_words};
use crate::table3::{counted_as_printed, Row, ROWS};

/// All lists of `count` numbers from 1 to 2^bits - 1 in rising order, with each bit in some number, and
/// none that a renumbering of the bits, sorted, makes smaller. A list whose front a renumbering makes
/// smaller is itself made smaller by it, so these fronts are not continued.
fn classes(count: usize, bits: usize) -> Vec<Vec<u16>> {
    let renumberings = permutations(bits);
    let renumber = |number: u16, to: &[usize]| (0..bits).map(|b| (number >> b & 1) << to[b]).sum();
    let tables: Vec<Vec<u16>> =
        renumberings.iter().map(|to| (0..1 << bits).map(|number| renumber(number, to)).collect()).collect();
    let mut fronts = vec![Vec::new()];
    for _ in 0..count {
        let mut longer = Vec::new();
        for front in &fronts {
            for number in front.last().copied().unwrap_or(1)..1 << bits {
                let mut next: Vec<u16> = front.clone();
                next.push(number);
                if tables.iter().all(|table| !makes_smaller(table, &next)) {
                    longer.push(next);
                }
            }
        }
        fronts = longer;
    }
    fronts.retain(|list| list.iter().fold(0, |all, number| all | number) + 1 == 1 << bits);
    fronts
}

fn makes_smaller(table: &[u16], list: &[u16]) -> bool {
    let mut renumbered = [0; 7];
    let renumbered = &mut renumbered[..list.len()];
    for (new, &old) in renumbered.iter_mut().zip(list) {
        *new = table[old as usize];
    }
    renumbered.sort_unstable();
    &*renumbered < list
}

fn permutations(count: usize) -> Vec<Vec<usize>> {
    if count == 0 {
        return vec![Vec::new()];
    }
    let mut all = Vec::new();
    for shorter in permutations(count - 1) {
        for place in 0..count {
            let mut longer = shorter.clone();
            longer.insert(place, count - 1);
            all.push(longer);
        }
    }
    all
}

/// A corpus: its numbers are rows where m is small, and columns where k is.
fn corpus(k: usize, m: usize) -> Vec<Code> {
    if m <= k {
        classes(k, m).iter().map(|rows| Code::from_rows(m, rows)).collect()
    } else {
        classes(m, k).iter().map(|columns| Code::new(k, columns)).collect()
    }
}

/// What a corpus has, by the engine's lists of all its codes, each compared with the second method, and
/// vectors counted as in Table 3. A vector is the better the smaller its first number that differs is
/// (section 3.5).
struct Found {
    best: Vec<usize>,
    best_d: usize,
    /// How many codes there are, how many with the vector and how many with the distance of Table 3.
    counts: [usize; 3],
    /// How many codes have a better vector than the one of Table 3.
    better: usize,
}

fn find(row: &Row) -> Found {
    let mut vectors = Vec::new();
    for code in corpus(row.k, row.m) {
        let list = code.listed();
        assert_eq!(list, list_by_words(&code), "{:?}", code);
        vectors.push(counted_as_printed(&code, &list));
    }
    let with_mev = vectors.iter().filter(|&vector| vector == row.mev).count();
    let with_d = vectors.iter().filter(|vector| first_place(vector) == row.d).count();
    Found {
        best: vectors.iter().min().unwrap().clone(),
        best_d: vectors.iter().map(|vector| first_place(vector)).max().unwrap(),
        counts: [vectors.len(), with_mev, with_d],
        better: vectors.iter().filter(|vector| vector.as_slice() < row.mev).count(),
    }
}

/// The rows whose corpus is gone through: not (6, 6), (6, 7), (7, 6) and (7, 7), which have from 200,082
/// codes on.
fn rows() -> impl Iterator<Item = &'static Row> {
    ROWS.iter().filter(|row| row.k.min(row.m) <= 5)
}

/// Table 3's columns "# in corpus", "# w MEV*", "# w d*", "MEV*" and "d*", found again as printed.
#[test]
fn best_of_each_corpus_with_m_up_to_k_is_as_printed() {
    for row in rows().filter(|row| row.m <= row.k) {
        let found = find(row);
        assert_eq!((found.best.as_slice(), found.best_d), (row.mev, row.d), "{} {}", row.k, row.m);
        assert_eq!(found.counts, row.counts, "{} {}", row.k, row.m);
    }
}

/// The same with m > k, where vectors are counted otherwise than section 2 says. All counts but one are as
/// printed: for (5, 7) 11890 codes are said to have the distance 4, and there are 10915. In three rows the
/// vector is as common as printed, but some codes have one with a last place of 0 in place of its 1.
#[test]
fn best_of_each_corpus_with_m_past_k() {
    for row in rows().filter(|row| row.m > row.k) {
        let found = find(row);
        let (best, better): (&[usize], usize) = match (row.k, row.m) {
            (4, 6) => (&[0, 0, 0, 2, 2, 0], 1),
            (5, 6) => (&[0, 0, 0, 4, 14, 0], 4),
            (5, 7) => (&[0, 0, 0, 1, 8, 0, 0], 1),
            _ => (row.mev, 0),
        };
        let mut counts = row.counts;
        if (row.k, row.m) == (5, 7) {
            counts[2] = 10915;
        }
        assert_eq!((found.best.as_slice(), found.better), (best, better), "{} {}", row.k, row.m);
        assert_eq!((found.best_d, found.counts), (row.d, counts), "{} {}", row.k, row.m);
    }
}

/// Section 4.1: "We validated the correctness of mela for the (4, 4)-code corpus; it contains 179 codes",
/// by brute force, as it is done here.
#[test]
fn all_codes_of_the_4_4_corpus() {
    let codes = corpus(4, 4);
    assert_eq!(codes.len(), 179);
    codes.iter().for_each(compare);
}
