//! Examples that the papers work out: the lists, vectors and equations that they write down.
use crate::codes::{size, Code};
use crate::plain::compare;

/// Disks of the example in 000's section 3.2: s1 to s4 are disks 0 to 3, p1 to p4 disks 4 to 7.
fn named(names: &str) -> u32 {
    let disk = |name: &str| {
        let number: u32 = name[1..].parse().unwrap();
        if name.starts_with('s') {
            number - 1
        } else {
            number + 3
        }
    };
    names.split(' ').map(|name| 1 << disk(name)).sum()
}

/// The generator matrix C of section 3.2, rows f_s1 to f_s4. The last entry of the first row is printed as
/// "17", a 1 and the matrix's bracket: Table 2 has the row as (s1, p1, p4).
fn example() -> Code {
    Code::from_rows(4, &[0b1001, 0b1111, 0b0110, 0b1100])
}

/// Document 000, section 3.2: "The MEL output by the ME Algorithm". Ten sets are printed, two of them
/// twice: (s1, s2, p2, p3) and (s2, s3, p1, p4). That leaves eight, where section 3.4 and the vector say
/// nine; the ninth is (s1, s4, p1, p3), which Table 2 ticks as a member of M.
const PRINTED: [&str; 10] = [
    "s1 p1 p4",
    "s3 p2 p3",
    "s4 p3 p4",
    "s1 s2 s3",
    "s1 s2 p2 p3",
    "s1 s2 p2 p3",
    "s2 s3 p1 p4",
    "s2 s4 p1 p2",
    "s2 s3 p1 p4",
    "s3 s4 p2 p4",
];
const LEFT_OUT: &str = "s1 s4 p1 p3";

/// "Any f longer than m = 4 is elided from the MEL." Document 01 lists these too; Table 2 ticks both.
const LONGER: [&str; 2] = ["s2 p1 p2 p3 p4", "s1 s2 s4 p2 p4"];

fn sorted(mut list: Vec<u32>) -> Vec<u32> {
    list.sort_unstable();
    list.dedup();
    list
}

#[test]
fn the_list_of_section_3_2() {
    let code = example();
    assert_eq!(code.columns, [3, 6, 14, 11]);
    let list = code.listed();
    let up_to_m: Vec<u32> = list.iter().copied().filter(|&set| size(set) <= 4).collect();
    let expected = PRINTED.iter().chain([&LEFT_OUT]).map(|names| named(names)).collect();
    assert_eq!(sorted(up_to_m.clone()), sorted(expected));
    assert_eq!(up_to_m.len(), 9); // section 3.4: "the size of the MEL is 9"
    assert!(LONGER.iter().all(|names| list.contains(&named(names))));
    compare(&code);
}

/// "The MEV output by the ME Algorithm is (0, 0, 4, 5)."
#[test]
fn the_vector_of_section_3_2() {
    assert_eq!(example().vector()[..4], [0, 0, 4, 5]);
}

/// Section 3.4: of all sets of up to m disks, 29 are erasure patterns ("the size of the EL for the code:
/// 29"), of the 162 that there are.
#[test]
fn the_erasure_patterns_of_section_3_4() {
    let code = example();
    let up_to_m: Vec<u32> = (1..256).filter(|&set| size(set) <= 4).collect();
    assert_eq!(up_to_m.len(), 162);
    assert_eq!(up_to_m.iter().filter(|&&set| code.is_fatal(set)).count(), 29);
}

/// Document 000, section 4.2, on the bitmaps of Table 3: "7, 11, 13" means that the parities are the XORs of
/// s1, s2 and s3, of s1, s2 and s4, and of s1, s3 and s4, so the data disks' lowest bit is s1's.
#[test]
fn the_bitmaps_of_section_4_2() {
    let code = Code::new(4, &[7, 11, 13]);
    for (parity, data) in [(4, "s1 s2 s3"), (5, "s1 s2 s4"), (6, "s1 s3 s4")] {
        assert!(code.equations(parity).contains(&named(data)));
    }
}

/// Document 000, section 4.2, on the rows that Table 3 leaves out. "Replication has no erasure patterns ..
/// of size less than or equal to m", "RAID 4 tolerates all erasure patterns of size 1": both vectors are
/// all 0 up to m. Document 01 lists the erasures of size m + 1: all disks, and every two disks.
#[test]
fn replication_and_raid_4() {
    for m in 1..=16 {
        let code = Code::new(1, &vec![1; m]);
        assert_eq!(code.vector(), [vec![0; m], vec![1]].concat());
        assert_eq!(code.listed(), [(1 << (m + 1)) - 1]);
    }
    for k in 1..=16 {
        let code = Code::new(k, &[((1u32 << k) - 1) as u16]);
        assert_eq!(code.vector(), [0, k * (k + 1) / 2]);
        compare(&code);
    }
}

/// Document 002, section IV-B: the equations of the Chain code with k = m = 3 (Figure 1), p3 to p5 being
/// disks 3 to 5; each digit is a disk. All 24 are minimal.
#[test]
fn the_equations_of_section_4_b() {
    let printed = [
        ["13", "234", "25", "145"],
        ["03", "24", "235", "045"],
        ["14", "034", "05", "135"],
        ["01", "024", "125", "45"],
        ["12", "023", "015", "35"],
        ["02", "123", "014", "34"],
    ];
    let code = crate::flat::chain(3, 3);
    assert_eq!(code.columns, [3, 6, 5]);
    for (disk, equations) in printed.iter().enumerate() {
        let set = |digits: &&str| digits.bytes().map(|digit| 1u32 << (digit - b'0')).sum();
        let mut expected: Vec<u32> = equations.iter().map(set).collect();
        expected.sort_by_key(|&set| code.equation_order(set));
        assert_eq!(code.equations(disk), expected, "disk {}", disk);
    }
}

/// Document 003, section 2.1, footnote: 8 data bits, p0 the XOR of the first four and p1 of the others; the
/// distance is two, but the loss of one of the first four and one of the others "can be tolerated". The
/// fatal pairs are those within a half and its parity: twice 5 choose 2.
#[test]
fn two_halves_with_a_parity_each() {
    let code = Code::new(8, &[0x0F, 0xF0]);
    assert_eq!(code.vector(), [0, 20, 0]);
    assert_eq!(code.distance(), 2);
    for x in 0..4 {
        for y in 4..8 {
            assert!(!code.is_fatal(1 << x | 1 << y));
        }
    }
    compare(&code);
}
