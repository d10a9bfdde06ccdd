//! Document 004: the full-2 code with n parity disks, "in which each data disk participates in exactly two
//! parity groups, and each pair of parity groups share exactly one data disk". Its graph with the sink is
//! the complete one on n + 1 vertices. With at most 16 data disks, n is at most 6.
use crate::codes::{choose, Code};
use crate::flat::{combination, Combination};
use crate::graphs::cycles;
use crate::plain::compare;

/// Data disk D_ij, i < j, is in groups i and j.
fn full2(n: usize) -> Code {
    let pairs = (0..n).flat_map(|i| (i + 1..n).map(move |j| 1 << i | 1 << j));
    Code::from_rows(n, &pairs.collect::<Vec<u16>>())
}

/// The number of D_ij in `full2(n)`.
fn data(n: usize, i: usize, j: usize) -> usize {
    (0..i).map(|before| n - 1 - before).sum::<usize>() + j - i - 1
}

/// Section III: n choose 2 data disks, n (n + 1) / 2 disks in all. Theorem 1 in the sink representation:
/// the minimal erasures are the cycles of the complete graph.
#[test]
fn erasures_of_full2_codes_are_the_cycles() {
    for n in 2..=6 {
        let code = full2(n);
        assert_eq!((code.k, code.n()), (choose(n, 2), n * (n + 1) / 2));
        assert_eq!(code.listed(), cycles(&code));
        compare(&code);
    }
}

/// A complete graph on v vertices has v choose s times (s - 1)! / 2 cycles of s edges. None is longer than
/// the n + 1 vertices, so each is counted. "Full-2 code is a 2-erasure binary linear code": the distance
/// is 3.
#[test]
fn counts_of_full2_codes() {
    for n in 2..=6 {
        let code = full2(n);
        let ways = |s: usize| if s < 3 { 0 } else { choose(n + 1, s) * (1..s).product::<usize>() / 2 };
        let expected: Vec<usize> = (1..=n + 1).map(ways).collect();
        assert_eq!(code.vector(), expected);
        assert_eq!(code.distance(), 3);
    }
}

/// Document 002, III-B1, calls it similar to the product code; it is the HD-Combination code with d = 3
/// that has as many data disks as its parities allow.
#[test]
fn full2_codes_are_combination_codes() {
    for n in 2..=6 {
        assert_eq!(full2(n).columns, combination(Combination::Hd, 3, choose(n, 2)).columns);
    }
}

/// Theorem 7: how many spanning forests of exactly `trees` trees the complete graph on v vertices has:
/// v^(v - t) times the sum over i of (-1 / 2v)^i (v - 1 choose t + i - 1) (t choose i) (t + i)! / t!. The
/// last line of its proof has v for the v - 1, which does not follow from the line before. Summed here
/// as multiples of 2^-t.
fn forests(v: usize, trees: usize) -> usize {
    let term = |i: usize| -> i64 {
        let rising = (trees + 1..=trees + i).product::<usize>();
        let counts = choose(v - 1, trees + i - 1) * choose(trees, i) * rising;
        let scaled = (counts * v.pow((v - trees - i) as u32)) << (trees - i);
        scaled as i64 * if i % 2 == 0 { 1 } else { -1 }
    };
    let sum: i64 = (0..=trees.min(v - trees)).map(term).sum();
    assert_eq!(sum % (1 << trees), 0);
    (sum >> trees) as usize
}

/// Corollary 8: of the sets of s disks that a full-2 code with n parity disks can lose, as many are
/// recoverable as the complete graph on n + 1 vertices has spanning forests of n + 1 - s trees; of the sets
/// of more than n disks none is. (Section IV says "up to n - 1 failures", but with s = n the corollary
/// still counts the spanning trees, and Lemma 2 is about the graph on n vertices.)
#[test]
fn recoverable_sets_are_counted_by_corollary_8() {
    for n in 2..=6 {
        let code = full2(n);
        let mut recoverable = vec![0; code.n() + 1];
        for set in (0..1u32 << code.n()).filter(|&set| !code.is_fatal(set)) {
            recoverable[set.count_ones() as usize] += 1;
        }
        let expected = |s: usize| if s <= n { forests(n + 1, n + 1 - s) } else { 0 };
        assert_eq!(recoverable, (0..=code.n()).map(expected).collect::<Vec<usize>>());
    }
}

/// Cayley's formula, Lemma 4: n^(n-2) spanning trees; and the forests of the graph on 4 vertices by hand: 1
/// without edges, 6 with one, 15 pairs of edges, and 20 triples less the 4 triangles.
#[test]
fn the_formula_of_theorem_7() {
    for v in 2..=7 {
        assert_eq!(forests(v, 1), v.pow(v as u32 - 2));
    }
    assert_eq!([4, 3, 2, 1].map(|trees| forests(4, trees)), [1, 6, 15, 16]);
}

/// Figures 2 and 3: the 10-disk code. Figure 3.b loses D_23, D_13, D_01 and P_0, and decodes them in this
/// order. With P_2 lost too, the path has both its ends and is a CPSS, which is not recoverable.
#[test]
fn the_10_disk_code_of_figures_2_and_3() {
    let code = full2(4);
    let lost = 1 << data(4, 2, 3) | 1 << data(4, 1, 3) | 1 << data(4, 0, 1) | 1 << code.k;
    assert_eq!((code.n(), lost), (10, 0b111_0001));
    assert!(!code.is_fatal(lost));
    assert!(code.is_fatal(lost | 1 << (code.k + 2)));
    assert!(code.listed().contains(&(lost | 1 << (code.k + 2))));
}
