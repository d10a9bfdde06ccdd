//! Document 000, Table 3: for each k and m from 2 to 7 one of the codes with the best minimal erasures
//! vector, that vector (MEV*) and the best distance (d*). All 36 rows are here.
use crate::codes::{by_size, first_place, size, Code};
use crate::plain::{compare, literal_list, undetermined_sets};

/// A row as printed. The ninth column is left out: it is an average over all codes of a k and m, whose
/// terms are not printed.
pub struct Row {
    pub k: usize,
    pub m: usize,
    /// "# in corpus", "# w MEV*", "# w d*".
    pub counts: [usize; 3],
    pub columns: &'static [u16],
    pub mev: &'static [usize],
    pub d: usize,
}

macro_rules! rows {
    ($(
        $k:literal $m:literal | $c:literal $v:literal $w:literal | $($x:literal),+ | ($($e:literal),+) $d:literal;
    )+) => {
        &[$(Row { k: $k, m: $m, counts: [$c, $v, $w], columns: &[$($x),+], mev: &[$($e),+], d: $d }),+]
    };
}

/// Printed for (2, 7) are eight columns, "1, 3, 3, 3, 3, 3, 3, 3", and eight places, "(0, 0, 0, 0, 0, 0, 0,
/// 1)", with m = 7 and d* = 7. The m, the d* and the rows above it tell that one 3 and one 0 are too many:
/// here it has seven.
#[rustfmt::skip]
pub const ROWS: &[Row] = rows![
    2 2 | 3 2 3 | 1, 3 | (0, 1) 2;
    2 3 | 5 1 2 | 1, 3, 3 | (0, 0, 1) 3;
    2 4 | 8 1 2 | 1, 3, 3, 3 | (0, 0, 0, 1) 4;
    2 5 | 11 1 2 | 1, 3, 3, 3, 3 | (0, 0, 0, 0, 1) 5;
    2 6 | 15 1 2 | 1, 3, 3, 3, 3, 3 | (0, 0, 0, 0, 0, 1) 6;
    2 7 | 19 1 2 | 1, 3, 3, 3, 3, 3, 3 | (0, 0, 0, 0, 0, 0, 1) 7;
    3 2 | 5 2 5 | 3, 5 | (0, 2) 2;
    3 3 | 17 2 2 | 3, 5, 6 | (0, 0, 4) 3;
    3 4 | 42 1 1 | 3, 5, 6, 7 | (0, 0, 0, 3) 4;
    3 5 | 91 1 1 | 3, 5, 6, 7, 7 | (0, 0, 0, 0, 3) 5;
    3 6 | 180 1 1 | 3, 5, 6, 7, 7, 7 | (0, 0, 0, 0, 0, 3) 6;
    3 7 | 328 1 1 | 3, 5, 6, 7, 7, 7, 7 | (0, 0, 0, 0, 0, 0, 3) 7;
    4 2 | 8 1 8 | 7, 11 | (0, 3) 2;
    4 3 | 42 1 1 | 7, 11, 13 | (0, 0, 7) 3;
    4 4 | 179 1 1 | 7, 11, 13, 14 | (0, 0, 0, 14) 4;
    4 5 | 633 1 14 | 3, 5, 9, 14, 15 | (0, 0, 0, 6, 1) 4;
    4 6 | 2001 2 166 | 3, 5, 7, 9, 14, 15 | (0, 0, 0, 2, 2, 1) 4;
    4 7 | 5745 1 10 | 3, 5, 7, 11, 13, 14, 15 | (0, 0, 0, 0, 1, 2, 1) 5;
    5 2 | 11 2 11 | 7, 27 | (0, 5) 2;
    5 3 | 91 3 91 | 7, 11, 29 | (0, 1, 10) 2;
    5 4 | 633 3 35 | 7, 11, 19, 29 | (0, 0, 4, 14) 3;
    5 5 | 3835 2 14 | 7, 11, 19, 29, 30 | (0, 0, 0, 10, 16) 4;
    5 6 | 20755 4 542 | 3, 5, 15, 23, 25, 30 | (0, 0, 0, 4, 14, 1) 4;
    5 7 | 102089 1 11890 | 7, 11, 13, 14, 19, 21, 25 | (0, 0, 0, 1, 8, 0, 1) 4;
    6 2 | 15 2 15 | 15, 51 | (0, 7) 2;
    6 3 | 180 6 180 | 7, 27, 45 | (0, 2, 14) 2;
    6 4 | 2001 6 35 | 7, 27, 45, 56 | (0, 0, 8, 18) 3;
    6 5 | 20755 7 12 | 7, 25, 42, 52, 63 | (0, 0, 0, 25, 0) 4;
    6 6 | 200082 5 1338 | 7, 27, 30, 45, 53, 56 | (0, 0, 0, 6, 24, 16) 4;
    6 7 | 1781941 19 118130 | 7, 11, 21, 25, 45, 51, 62 | (0, 0, 0, 2, 16, 18, 1) 4;
    7 2 | 19 1 19 | 31, 103 | (0, 9) 2;
    7 3 | 328 7 328 | 15, 51, 85 | (0, 3, 19) 2;
    7 4 | 5745 10 28 | 15, 54, 90, 113 | (0, 0, 12, 26) 3;
    7 5 | 102089 8 10 | 7, 57, 90, 108, 119 | (0, 0, 0, 38, 0) 4;
    7 6 | 1781941 57 2610 | 7, 46, 56, 75, 85, 118 | (0, 0, 0, 14, 28, 24) 4;
    7 7 | 29610804 20 965097 | 7, 27, 45, 51, 86, 110, 120 | (0, 0, 0, 3, 24, 36, 16) 4;
];

/// The rows with m > k: k, m, and the vector's first m numbers by brute force over document 01's definitions,
/// which none of these rows prints. Printed are all entries of size up to k, but of the larger ones only the base
/// erasures, those with one data disk (see `counted_as_printed`), although 000's section 2 asks for all
/// up to size m, as document 01 does. Where d* is another too, the row says so.
#[rustfmt::skip]
const MORE_PARITY: &[(usize, usize, &[usize])] = &[
    (2, 3, &[0, 0, 2]),                // printed 0 0 1
    (2, 4, &[0, 0, 1, 1]),             // printed 0 0 0 1, d* 4: in truth 3
    (2, 5, &[0, 0, 1, 0, 1]),          // printed 0 0 0 0 1, d* 5: in truth 3
    (2, 6, &[0, 0, 1, 0, 0, 1]),       // printed 0 0 0 0 0 1, d* 6: in truth 3
    (2, 7, &[0, 0, 1, 0, 0, 0, 1]),    // printed 0 0 0 0 0 0 0 1, d* 7: in truth 3
    (3, 4, &[0, 0, 0, 7]),             // printed 0 0 0 3
    (3, 5, &[0, 0, 0, 3, 4]),          // printed 0 0 0 0 3, d* 5: in truth 4
    (3, 6, &[0, 0, 0, 3, 0, 4]),       // printed 0 0 0 0 0 3, d* 6: in truth 4
    (3, 7, &[0, 0, 0, 3, 0, 0, 4]),    // printed 0 0 0 0 0 0 3, d* 7: in truth 4
    (4, 5, &[0, 0, 0, 6, 8]),          // printed 0 0 0 6 1
    (4, 6, &[0, 0, 0, 2, 8, 4]),       // printed 0 0 0 2 2 1
    (4, 7, &[0, 0, 0, 0, 6, 6, 2]),    // printed 0 0 0 0 1 2 1
    (5, 6, &[0, 0, 0, 4, 14, 8]),      // printed 0 0 0 4 14 1
    (5, 7, &[0, 0, 0, 1, 8, 12, 8]),   // printed 0 0 0 1 8 0 1
    (6, 7, &[0, 0, 0, 2, 16, 18, 10]), // printed 0 0 0 2 16 18 1
];

/// The vector that Table 3 prints for a code, from its true list.
pub fn counted_as_printed(code: &Code, list: &[u32]) -> Vec<usize> {
    let counted = |&set: &u32| size(set) <= code.k || size(code.data_part(set)) == 1;
    by_size(&list.iter().copied().filter(counted).collect::<Vec<u32>>(), code.m())
}

#[test]
fn all_rows_of_table_3_are_here() {
    let sizes: Vec<_> = ROWS.iter().map(|row| (row.k, row.m)).collect();
    let expected: Vec<_> = (2..=7).flat_map(|k| (2..=7).map(move |m| (k, m))).collect();
    assert_eq!(sizes, expected);
    for row in ROWS {
        assert_eq!((row.columns.len(), row.mev.len()), (row.m, row.m));
    }
}

#[test]
fn vectors_with_m_up_to_k_are_as_printed() {
    let mut rows = 0;
    for row in ROWS.iter().filter(|row| row.m <= row.k) {
        let code = Code::new(row.k, row.columns);
        assert_eq!(code.vector()[..row.m], *row.mev, "{:?}", code);
        assert_eq!(code.distance(), row.d, "{:?}", code);
        rows += 1;
    }
    assert_eq!(rows, 21);
}

#[test]
fn vectors_with_m_past_k_follow_the_definitions() {
    let rows: Vec<&Row> = ROWS.iter().filter(|row| row.m > row.k).collect();
    assert_eq!(rows.len(), MORE_PARITY.len());
    for (row, &(k, m, vector)) in rows.iter().zip(MORE_PARITY) {
        assert_eq!((row.k, row.m), (k, m));
        let code = Code::new(k, row.columns);
        let counted = by_size(&literal_list(&code, &undetermined_sets(&code)), m + 1);
        assert_eq!(counted[..m], *vector, "{:?}", code);
        assert_eq!(code.vector(), counted, "{:?}", code);
        assert_ne!(row.mev, vector, "{:?}", code);
    }
}

/// What is printed is a part of each list, the same part in all 36 rows; so no figure of the table is
/// without a check.
#[test]
fn every_printed_vector_counts_a_part_of_the_list() {
    for row in ROWS {
        let code = Code::new(row.k, row.columns);
        let vector = counted_as_printed(&code, &code.listed());
        assert_eq!(vector, row.mev, "{:?}", code);
        assert_eq!(first_place(&vector), row.d, "{:?}", code);
    }
}

/// The eight columns that are printed for (2, 7) are a code with m = 8. Its one printed entry is that of
/// size 8 with one data disk; by the definitions data disks 0 and 1 with the first parity are fatal too.
#[test]
fn the_eight_columns_that_the_row_2_7_prints() {
    let code = Code::new(2, &[1, 3, 3, 3, 3, 3, 3, 3]);
    assert_eq!(counted_as_printed(&code, &code.listed()), [0, 0, 0, 0, 0, 0, 0, 1]);
    assert_eq!(code.vector(), [0, 0, 1, 0, 0, 0, 0, 1, 1]);
    compare(&code);
}

#[test]
fn lists_are_those_of_the_definitions() {
    for row in ROWS {
        compare(&Code::new(row.k, row.columns));
    }
}
