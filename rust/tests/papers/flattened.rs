//! Document 002, section III-B: flattened array codes. Each word of an array of strips is put on a disk of
//! its own, which gives a flat code "with the same Hamming distance as the original array code".
use crate::codes::{by_size, Code};
use crate::graphs::cycles;
use crate::plain::compare;

/// III-B1, Figure 2: a square of q x q data disks with a parity disk for each row and each column.
fn product(q: usize) -> Code {
    let rows: Vec<u16> = (0..q * q).map(|i| 1 << (i / q) | 1 << (q + i % q)).collect();
    Code::from_rows(2 * q, &rows)
}

/// "For an SPC code with q rows/columns, k = q^2 and m = 2q"; Figure 2 has q = 3: "k = 9 and m = 6. Hamming
/// distance is three when flattened".
#[test]
fn product_codes_have_the_distance_3() {
    for q in 2..=4 {
        let code = product(q);
        assert_eq!((code.k, code.m()), (q * q, 2 * q));
        assert_eq!(code.distance(), 3);
        compare(&code);
        assert_eq!(code.listed(), cycles(&code));
    }
}

/// A product code's graph has the q rows and the q columns as two sides, each joined to all of the other
/// side, and the sink joined to all. With f(t) = q (q - 1) .. (q - t + 1), a cycle without the sink runs
/// through t >= 2 rows and t columns: f(t)^2 / 2t of them, of size 2t. One through the sink is a path
/// between the two sides and back through the sink: t rows and t columns, f(t)^2 of size 2t + 1, or t of
/// one side and t + 1 of the other, f(t) f(t + 1) of size 2t + 2.
#[test]
fn counts_of_product_codes() {
    for q in 2..=4 {
        let f = |t: usize| (0..t).map(|i| q - i).product::<usize>();
        let mut counts = vec![0; 2 * q + 2];
        for t in 1..=q {
            counts[2 * t] += if t >= 2 { f(t) * f(t) / (2 * t) } else { 0 };
            counts[2 * t + 1] += f(t) * f(t);
            if t < q {
                counts[2 * t + 2] += f(t) * f(t + 1);
            }
        }
        assert_eq!(by_size(&product(q).listed(), 2 * q + 1), counts[1..]);
    }
}

/// An array code, flattened: the code, and the strips as sets of disks.
struct Flattened {
    code: Code,
    strips: Vec<u32>,
}

/// III-B2, Figure 3: p - 1 rows; p - 1 data strips, the strip of row parities and that of diagonal
/// parities. Data disk (p - 1) r + c is in row r and strip c: "the first data disk would store elements
/// d0, d4, d8, d12". Diagonal i, of p - 1, is the XOR of the words with r + c = i modulo p, where the row
/// parities are strip p - 1.
fn row_diagonal(p: usize) -> Flattened {
    let q = p - 1;
    let row = |r: usize| (0..q).fold(0, |column, c| column | 1 << (q * r + c));
    let diagonal = |i: usize| {
        let word = |r: usize, c: usize| if c < q { 1 << (q * r + c) } else { row(r) };
        let on = |r: &usize, c: usize| (r + c) % p == i;
        (0..p).fold(0, |sum, c| (0..q).filter(|r| on(r, c)).fold(sum, |sum, r| sum ^ word(r, c)))
    };
    let columns: Vec<u16> = (0..q).map(row).chain((0..q).map(diagonal)).collect();
    let data = |c: usize| (0..q).fold(0, |strip, r| strip | 1 << (q * r + c));
    let parity = |s: usize| (0..q).fold(0, |strip, r| strip | 1 << (q * q + q * s + r));
    Flattened { code: Code::new(q * q, &columns), strips: (0..q).map(data).chain((0..2).map(parity)).collect() }
}

/// Document 001, "EVENODD Coding", with the first n of p data strips, the others being virtual: p - 1 rows;
/// a strip of row parities, and one whose word i is the XOR of S and of the data on the diagonal of the
/// first strip's word i, S being the XOR of the one diagonal that has no word there. Diagonals are r + c
/// modulo p.
fn even_odd(p: usize, n: usize) -> Flattened {
    let q = p - 1;
    let row = |r: usize| (0..n).fold(0, |column, c| column | 1 << (n * r + c));
    let diagonal = |i: usize| {
        let words = (0..q * n).filter(|word| (word / n + word % n) % p == i);
        words.fold(0, |column, word| column | 1 << word)
    };
    let columns: Vec<u16> = (0..q).map(row).chain((0..q).map(|i| diagonal(i) ^ diagonal(q))).collect();
    let data = |c: usize| (0..q).fold(0, |strip, r| strip | 1 << (n * r + c));
    let parity = |s: usize| (0..q).fold(0, |strip, r| strip | 1 << (n * q + q * s + r));
    Flattened { code: Code::new(n * q, &columns), strips: (0..n).map(data).chain((0..2).map(parity)).collect() }
}

/// Document 001, "The X-Code": p strips, each of n = p - 2 data words and two coding words; the coding
/// words are "parity-striping with opposite-sloped diagonals". The slides' pictures are not in the text;
/// that "each coding word is independent of one data device" besides its own fits diagonals that start
/// two strips away.
fn x_code(p: usize) -> Flattened {
    let n = p - 2;
    let slope = |c: usize, down: bool| {
        let strip = |r: usize| if down { c + r + 2 } else { c + 2 * p - r - 2 } % p;
        (0..n).fold(0, |column, r| column | 1 << (p * r + strip(r)))
    };
    let columns: Vec<u16> = (0..p).map(|c| slope(c, true)).chain((0..p).map(|c| slope(c, false))).collect();
    let strip = |c: usize| (0..n + 2).fold(0, |strip, r| strip | 1 << (p * r + c));
    Flattened { code: Code::new(p * n, &columns), strips: (0..p).map(strip).collect() }
}

/// The array is two-disk fault tolerant and MDS: any two strips may be lost, no three. Flattened it has
/// the distance 3.
fn tolerates_two_strips(array: &Flattened) {
    let code = &array.code;
    assert_eq!(array.strips.iter().fold(0, |all, strip| all ^ strip), ((1u64 << code.n()) - 1) as u32);
    for (c, third) in array.strips.iter().enumerate() {
        for (b, second) in array.strips[..c].iter().enumerate() {
            assert!(!code.is_fatal(second | third), "{:?}", code);
            for first in &array.strips[..b] {
                assert!(code.is_fatal(first | second | third), "{:?}", code);
            }
        }
    }
    assert_eq!(code.distance(), 3, "{:?}", code);
    compare(code);
}

/// "Flattened RDP code for prime p = 5 yields k = 16, m = 8, and d = 3"; "k = (p-1)^2 and m = 2(p-1)"; "p
/// parity equations are p - 1 elements in length, and p - 2 parity equations are 2p - 3".
#[test]
fn flattened_rdp() {
    for p in [3, 5] {
        let array = row_diagonal(p);
        assert_eq!((array.code.k, array.code.m()), ((p - 1) * (p - 1), 2 * (p - 1)));
        let lengths: Vec<usize> = array.code.columns.iter().map(|c| c.count_ones() as usize).collect();
        let of = |length: usize| lengths.iter().filter(|&&l| l == length).count();
        assert_eq!((of(p - 1), of(2 * p - 3)), (p, p - 2));
        tolerates_two_strips(&array);
    }
    assert_eq!((row_diagonal(5).code.k, row_diagonal(5).code.m()), (16, 8));
}

/// "Flattening can be applied to other two-disk fault tolerant array codes such as EVENODD, X-CODE"; here
/// those that have at most 16 data words.
#[test]
fn flattened_evenodd_and_x_code() {
    tolerates_two_strips(&even_odd(3, 3));
    for n in 2..=4 {
        tolerates_two_strips(&even_odd(5, n));
    }
    let x_code = x_code(5);
    assert_eq!((x_code.code.k, x_code.code.m()), (15, 10));
    tolerates_two_strips(&x_code);
    // V-C names the X-Code among those whose data words are each in d - 1 = 2 parities.
    assert!((0..15).all(|i| x_code.code.base(i).count_ones() == 3));
}
