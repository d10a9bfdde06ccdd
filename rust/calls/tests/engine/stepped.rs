//! Document 02, request [7]: which three numbers make a card, which card they make, and its distance by the engine's own lister. The parity sets
//! and the cards were worked out by hand.

use crate::listed::listed;
use crate::worked::worked;
use bridgecrumb::{read_card, write_card, write_stepped_card, Card, Edition::First};
use calls::cards::card_of;
use calls::input::Input;
use calls::lent::{Lent, Place};
use calls::table::TABLE;

/// The cards of a distance and of so many parity disks: the least k, and the parity sets in order; the greatest k takes them all, or is 16.
struct Family {
    d: usize,
    m: usize,
    least_k: usize,
    sets: &'static [u32],
}

const fn family(d: usize, m: usize, least_k: usize, sets: &'static [u32]) -> Family {
    Family { d, m, least_k, sets }
}

const FAMILIES: [Family; 8] = [
    family(3, 2, 1, &[3]),
    family(3, 3, 2, &[3, 5, 6, 7]),
    family(3, 4, 5, &[3, 5, 6, 9, 10, 12, 7, 11, 13, 14, 15]),
    family(3, 5, 12, &[3, 5, 6, 9, 10, 12, 17, 18, 20, 24, 7, 11, 13, 14, 19, 21]),
    family(4, 3, 1, &[7]),
    family(4, 4, 2, &[7, 11, 13, 14]),
    family(4, 5, 5, &[7, 11, 13, 14, 19, 21, 22, 25, 26, 28, 31]),
    family(4, 6, 12, &[7, 11, 13, 14, 19, 21, 22, 25, 26, 28, 35, 37, 38, 41, 42, 44]),
];

impl Family {
    fn has(&self, d: usize, m: usize, k: usize) -> bool {
        (self.d, self.m) == (d, m) && self.least_k <= k && k <= self.sets.len()
    }
}

/// All up to 20, and some that are far off, of which some have the lowest bits of a good one.
fn numbers() -> Vec<usize> {
    let far = [255, 256 + 3, 65536 + 4, u32::MAX as usize, 1 << 32, 1 << 32 | 3, 1 << 63, 1 << 63 | 3, usize::MAX];
    (0..=20).chain(far).collect()
}

fn input(d: usize, m: usize, k: usize, out_len: usize) -> Input {
    Input { distance: d, m, k, out_len, ..Input::default() }
}

/// The number that is answered where the buffer fits, and where not.
fn number(d: usize, m: usize, k: usize, fits: bool) -> u64 {
    if !(1..=16).contains(&k) {
        2
    } else if !(1..=16).contains(&m) {
        3
    } else if d != 3 && d != 4 {
        20
    } else if !FAMILIES.iter().any(|family| family.has(d, m, k)) {
        21
    } else if !fits {
        7
    } else {
        0
    }
}

/// Of all three numbers up to 20, and of some huge ones in each place, 32 make a card. Where the buffer has another length that is 7, after every other
/// refusal, and a refused call changes no byte.
#[test]
fn accepted_numbers() {
    let row = TABLE.iter().find(|row| row.name == "card_stepped").expect("the stepped card");
    let (mut lent, mut turn, mut accepted) = (Lent::new(), 0, 0);
    for d in numbers() {
        for m in numbers() {
            let right = 2 + 2 * m.min(20);
            for k in numbers() {
                for out_len in [right, right - 1, right + 1, 0] {
                    turn += 1;
                    let answer = row.try_input(&input(d, m, k, out_len), &mut lent, Place::of_turn(turn));
                    assert_eq!(answer, number(d, m, k, out_len == right), "d = {d}, m = {m}, k = {k}, {out_len} bytes");
                    accepted += usize::from(answer == 0);
                }
            }
        }
    }
    assert_eq!(accepted, 32);
}

/// Each card that can be made, with the parity sets of its data disks.
fn each_card(then: impl Fn(&Family, &[u32], &[u8])) {
    for family in &FAMILIES {
        for k in family.least_k..=family.sets.len() {
            let mut card = vec![0xa5; 2 + 2 * family.m];
            write_stepped_card(family.d, family.m, k, &mut card).expect("one of the 32");
            then(family, &family.sets[..k], &card);
        }
    }
}

/// The card reader accepts each card, with its k and m, and its columns give the parity sets back; the card writer writes it again.
#[test]
fn parity_sets_in_order() {
    each_card(|family, sets, card| {
        let Card { k, m, columns, .. } = read_card(First, card).expect("a good card");
        assert_eq!((k, m), (sets.len(), family.m));
        let set = |i: usize| (0..16).filter(|&j| columns[j] >> i & 1 == 1).map(|j| 1 << j).sum::<u32>();
        assert_eq!((0..k).map(set).collect::<Vec<u32>>(), sets, "{card:?}");
        let mut again = vec![0; card.len()];
        write_card(First, k, m, &columns[..m], &[], &mut again).expect("its columns");
        assert_eq!(again, card);
    });
}

/// No listed set is smaller than d, and some are of d disks: data disk 0 with its d - 1 parity disks. The vector says so too.
#[test]
fn distances() {
    each_card(|family, sets, card| {
        let (d, k) = (family.d, sets.len());
        let (told, list) = listed(card);
        assert_eq!(list.iter().map(|set| set.count_ones() as usize).min(), Some(d), "{card:?}");
        assert!(list.contains(&(1 | sets[0] << k)), "{card:?}");
        assert_eq!(told.vector.iter().position(|&count| count != 0), Some(d - 1), "{card:?}");
    });
}

/// The card has these columns.
fn made(d: usize, m: usize, k: usize, columns: &[u16]) {
    worked("card_stepped", input(d, m, k, 2 + 2 * m), 0, vec![card_of(k, m, columns).bytes]);
}

/// By hand, column by column. With d = 3 and m = 4 the lexicographic order would be another: 3, 5, 9, 6, 10, 12. Columns of 16 data disks have both
/// bytes.
#[test]
fn cards_by_hand() {
    worked("card_stepped", input(3, 2, 1, 6), 0, vec![vec![1, 2, 1, 0, 1, 0]]);
    worked("card_stepped", input(3, 3, 4, 8), 0, vec![vec![4, 3, 11, 0, 13, 0, 14, 0]]);
    made(3, 3, 2, &[0b11, 0b01, 0b10]);
    made(3, 4, 5, &[0b01011, 0b10101, 0b00110, 0b11000]);
    made(3, 4, 11, &[0b101_1100_1011, 0b110_1101_0101, 0b111_0110_0110, 0b111_1011_1000]);
    made(3, 5, 16, &[0xdc4b, 0x6c95, 0xb526, 0x3a38, 0xc3c0]);
    made(4, 3, 1, &[1, 1, 1]);
    made(4, 4, 4, &[0b0111, 0b1011, 0b1101, 0b1110]);
    made(4, 5, 11, &[0x4b7, 0x55b, 0x66d, 0x78e, 0x7f0]);
}

fn refused(number: u64, d: usize, m: usize, k: usize, out_len: usize) {
    worked("card_stepped", input(d, m, k, out_len), number, Vec::new());
}

/// The first of the faults is answered, in the order 2, 3, 20, 21, 7.
#[test]
fn refusals_in_order() {
    refused(2, 0, 0, 0, 0);
    refused(2, 3, 3, 17, 8);
    refused(2, usize::MAX, usize::MAX, usize::MAX, 0);
    refused(3, 0, 0, 1, 0);
    refused(3, 9, 17, 16, 36);
    refused(3, 3, 1 << 63 | 3, 4, 8); // 2 + 2m is 8 in 64 bits
    refused(20, 5, 3, 16, 8);
    refused(20, 2, 2, 1, 6);
    refused(20, 0, 1, 1, 0);
    refused(20, 1 << 32 | 3, 3, 4, 8);
    refused(21, 3, 1, 1, 4);
    refused(21, 4, 1, 1, 4);
    refused(21, 3, 3, 5, 8);
    refused(21, 4, 2, 1, 6);
    refused(21, 4, 3, 2, 0);
    refused(21, 3, 16, 16, 34);
    refused(7, 3, 3, 4, 0);
    refused(7, 4, 3, 1, 7);
    refused(7, 4, 6, 16, 15);
    refused(7, 3, 2, 1, 256 + 6);
}
