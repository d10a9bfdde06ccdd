//! Document 002, sections III-A and III-C: Chain, Stepped Combination and HD-Combination codes, with the
//! distances that the paper claims for them, and the Stepped Combination cards that the engine writes.
use crate::codes::{by_size, choose, size, Code};
use crate::graphs::cycles;
use crate::plain::{compare, shortest_equations};
use bridgecrumb::{read_card, write_stepped_card, Edition, Error};

/// III-A: "each parity equation is the XOR sum of d - 1 contiguous data elements, wrapping around
/// appropriately after the k-th". The formula beside it sums from i = j to j + d - 1, which is one too
/// many: Figure 1's code, written out in IV-B, and the sentence itself have d - 1 elements.
pub fn chain(k: usize, d: usize) -> Code {
    let column = |j: usize| (j..j + d - 1).fold(0, |column, i| column | 1 << (i % k));
    Code::new(k, &(0..k).map(column).collect::<Vec<u16>>())
}

#[derive(Clone, Copy, Debug)]
pub enum Combination {
    /// Sizes d - 1 and up, by 1 for d = 3 and by 2 for d = 4.
    Stepped,
    /// Size d - 1 alone.
    Hd,
}

/// The sizes of parity combinations that a construction hands out, in order.
fn sizes(kind: Combination, d: usize, m: usize) -> Vec<usize> {
    match kind {
        Combination::Stepped => (d - 1..=m).step_by(d - 2).collect(),
        Combination::Hd => vec![d - 1],
    }
}

/// How many data disks a construction can serve.
fn most(kind: Combination, d: usize, m: usize) -> usize {
    sizes(kind, d, m).iter().map(|&size| if size <= m { choose(m, size) } else { 0 }).sum()
}

/// Figure 4 with the smallest m that serves k data disks: each takes the next combination of parities,
/// smaller sizes first. The paper doesn't say in which order those of one size go. Here they go by their
/// lowest parity, then the next and so on; Table II's figures come out in this order, and not, say, in
/// the order of the sets' numbers.
pub fn combination(kind: Combination, d: usize, k: usize) -> Code {
    let m = (1..).find(|&m| k <= most(kind, d, m)).unwrap();
    let mut rows = Vec::new();
    for size in sizes(kind, d, m) {
        let mut next: Vec<u16> = (0..1 << m).filter(|row: &u16| row.count_ones() as usize == size).collect();
        next.sort_by_key(|row| row.reverse_bits());
        next.reverse();
        rows.extend(next);
    }
    Code::from_rows(m, &rows[..k])
}

/// The combination of parities of each data disk.
fn parity_sets(code: &Code) -> Vec<u32> {
    (0..code.k).map(|i| code.base(i) >> code.k).collect()
}

/// III-A: "The Chain code construction requires that k = m >= d = 3", and "if k = m >= d = 4, then connect
/// each parity element to three contiguous data elements"; the distance is d.
#[test]
fn chain_codes_have_the_distance_d() {
    for d in 3..=4 {
        for k in d..=16 {
            let code = chain(k, d);
            assert_eq!(code.m(), k);
            assert_eq!(code.distance(), d, "{:?}", code);
            compare(&code);
        }
    }
}

/// The graph of a chain code with d = 3 is a wheel: the groups are its rim, the sink its hub. Its cycles
/// are the rim, and for each of k starts the ways from the hub along 1 to k - 1 edges of the rim and
/// back: k of each size from 3 to k + 1, one more of size k, in all k^2 - k + 1.
#[test]
fn chain_codes_with_d_3_are_wheels() {
    for k in 3..=16 {
        let code = chain(k, 3);
        let list = code.listed();
        assert_eq!(list, cycles(&code), "{:?}", code);
        assert_eq!(list.len(), k * k - k + 1);
        let expected = |size: usize| usize::from(size == k) + if size >= 3 { k } else { 0 };
        assert_eq!(by_size(&list, k + 1), (1..=k + 1).map(expected).collect::<Vec<usize>>());
    }
}

/// III-A: "If d = 2, then the Chain code construction replicates each data element once (i.e., RAID 10)".
#[test]
fn the_chain_with_d_2_is_a_mirror() {
    for k in 1..=16 {
        let code = chain(k, 2);
        let pairs: Vec<u32> = (0..k).map(|i| 1 << i | 1 << (k + i)).collect();
        assert_eq!(code.listed(), pairs);
    }
}

/// III-A: "If k is less than d, then all of the parity equations end up being the same (the XOR sum of all
/// data elements) and the constructed Chain code does not achieve a Hamming distance of d": any two data
/// disks are then an erasure.
#[test]
fn a_chain_that_is_too_short_has_not_the_distance_d() {
    for (k, d) in [(2, 3), (3, 4)] {
        let code = chain(k, d);
        assert!(code.columns.iter().all(|&column| column == (1 << k) - 1));
        assert_eq!(code.distance(), 2);
    }
}

/// V-D: "The Chain code has the shortest recovery equations of d - 1", for every disk.
#[test]
fn equations_of_chain_codes_start_at_d_less_1() {
    for d in 3..=4 {
        for k in d..=9 {
            let code = chain(k, d);
            let first: Vec<usize> = (0..code.n()).map(|disk| code.equations(disk)[0].count_ones() as usize).collect();
            assert_eq!(first, shortest_equations(&code), "{:?}", code);
            assert_eq!(first, vec![d - 1; code.n()], "{:?}", code);
        }
    }
}

/// III-C: the distances of all four constructions, each with every k up to 16 and the m that its bounds on
/// k give; the sketches are in Appendix I.
#[test]
fn combination_codes_have_the_distance_d() {
    for kind in [Combination::Stepped, Combination::Hd] {
        for d in 3..=4 {
            for k in 1..=16 {
                let code = combination(kind, d, k);
                assert_eq!(code.distance(), d, "{:?} {:?}", kind, code);
                compare(&code);
            }
        }
    }
}

/// The bounds on k as III-C prints them. Stepped: 2^(m-1) - m < k <= 2^m - m - 1 for d = 3, and
/// 2^(m-2) - m + 1 < k <= 2^(m-1) - m for d = 4. HD: between m - 1 choose d - 1 and m choose d - 1.
#[test]
fn combination_codes_keep_the_bounds_on_k() {
    for k in 1..=16 {
        let m = |kind, d| combination(kind, d, k).m();
        let (step3, step4) = (m(Combination::Stepped, 3), m(Combination::Stepped, 4));
        assert!((1 << (step3 - 1)) - step3 < k && k < (1 << step3) - step3);
        assert!((1 << (step4 - 2)) + 1 - step4 < k && k <= (1 << (step4 - 1)) - step4);
        for d in 3..=4 {
            let hd = m(Combination::Hd, d);
            let below = if hd == d - 1 { 0 } else { choose(hd - 1, d - 1) };
            assert!(below < k && k <= choose(hd, d - 1));
        }
    }
    assert_eq!((most(Combination::Stepped, 3, 4), most(Combination::Stepped, 4, 5)), (11, 11));
}

/// Figure 5: with d = 3 and m = 4 the data disks are 6 of two parities, then 4 of three, then 1 of all.
#[test]
fn the_stepped_codes_of_figure_5() {
    for (k, of_each_size) in [(6, [0, 6, 0, 0]), (10, [0, 6, 4, 0]), (11, [0, 6, 4, 1])] {
        let code = combination(Combination::Stepped, 3, k);
        assert_eq!(code.m(), 4);
        let parities = parity_sets(&code);
        assert_eq!(by_size(&parities, 4), of_each_size);
        assert!(parities.windows(2).all(|pair| pair[0].count_ones() <= pair[1].count_ones()));
        // All nonzero columns of a check matrix with m rows are those of the Hamming code of 15 disks: with
        // k = 11 its 35 words of weight 3 (15 * 14 / 6) are the erasures of three disks.
        if k == 11 {
            assert_eq!(code.vector()[2], 35);
        }
    }
}

/// The code of the card that the engine writes for the three numbers.
fn stepped_card(d: usize, m: usize, k: usize) -> Result<Code, Error> {
    let mut card = vec![0; 2 + 2 * m];
    write_stepped_card(d, m, k, &mut card)?;
    Ok(Code::new(k, &read_card(Edition::First, &card)?.columns[..m]))
}

/// Document 02's call beside the construction above: it takes the same m and no other, and as many
/// combinations of each size. Within a size it goes by their numbers; where all of the last size are
/// taken, the combinations are the same.
#[test]
fn stepped_cards_are_of_the_same_combinations() {
    for d in 3..=4 {
        for k in 1..=16 {
            let paper = combination(Combination::Stepped, d, k);
            let m = paper.m();
            for other in (1..=16).filter(|&other| other != m) {
                assert_eq!(stepped_card(d, other, k).unwrap_err(), Error::Bounds, "{:?}, m = {}", paper, other);
            }
            let code = stepped_card(d, m, k).unwrap();
            let [mut ours, mut papers] = [&code, &paper].map(parity_sets);
            assert_eq!(by_size(&ours, m), by_size(&papers, m), "{:?}", code);
            let last = size(papers[k - 1]);
            if by_size(&papers, m)[last - 1] == choose(m, last) {
                ours.sort_unstable();
                papers.sort_unstable();
                assert_eq!(ours, papers, "{:?}", code);
            }
            assert_eq!(code.distance(), d, "{:?}", code);
            compare(&code);
        }
    }
}
