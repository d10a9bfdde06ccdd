//! Document 02, request [8]: two cards are alike where their k and m are equal and their columns are a rearrangement of each other. Rearrangements are
//! looked for among all orders of the parity disks, or made by one; where cards are alike the lists that the engine writes for them match entry for entry
//! once the parity disks are renumbered so, and data disks keep their numbers.

use crate::listed::listed;
use crate::worked::worked;
use bridgecrumb::{alike, encode, Edition::First, Listing};
use calls::cards::{any_columns, c1, card_of, every_card, repeated_columns};
use calls::choice::Choice;
use calls::input::Input;
use calls::reference::{self, read_card, Card, Said};
use calls::table::TABLE;

/// A card, and what the engine's lister answers for it.
struct Listed {
    card: Card,
    k: usize,
    columns: Vec<u16>,
    told: Listing,
    list: Vec<u32>,
}

impl Listed {
    fn of(card: Card) -> Listed {
        let Said { k, columns, .. } = read_card(&card).expect("a good card");
        let (told, list) = listed(&card);
        Listed { card, k, columns, told, list }
    }

    /// Whether parity disk j of this card has the column of parity disk `order[j]` of the other, for each j.
    fn carried_by(&self, order: &[usize], other: &Listed) -> bool {
        order.iter().zip(&self.columns).all(|(&there, column)| other.columns[there] == *column)
    }

    /// Count and vector are equal, and each entry of the other list is the entry here with each parity disk k + j replaced by k + order[j].
    fn lists_match(&self, order: &[usize], other: &Listed) {
        assert_eq!(self.told, other.told, "{:?} and {:?}", self.card, other.card);
        let replaced: Vec<u32> = self.list.iter().map(|&set| renumbered(set, self.k, order)).collect();
        assert_eq!(replaced, other.list, "{:?} and {:?} by {order:?}", self.card, other.card);
    }

    /// The disks interchange: out of the same data strips the encoder makes the same parity strips, each for the disk that its own is renumbered to.
    fn strips_match(&self, order: &[usize], other: &Listed, data: &[u8]) {
        let strip_len = data.len() / self.k;
        let encoded = |card: &Card| {
            let mut stripe = [data, &vec![0; order.len() * strip_len]].concat();
            encode(First, card, strip_len, &mut stripe).expect("a stripe");
            stripe.split_off(data.len())
        };
        let (here, there) = (encoded(&self.card), encoded(&other.card));
        for (j, strip) in here.chunks(strip_len).enumerate() {
            assert_eq!(*strip, there[order[j] * strip_len..][..strip_len], "{:?} and {:?}", self.card, other.card);
        }
    }
}

fn renumbered(set: u32, k: usize, order: &[usize]) -> u32 {
    let parities = (0..order.len()).filter(|j| set >> (k + j) & 1 == 1);
    parities.fold(set & ((1 << k) - 1), |sum, j| sum | 1 << (k + order[j]))
}

/// All orders of the numbers below m.
fn orders(m: usize) -> Vec<Vec<usize>> {
    if m == 0 {
        return vec![Vec::new()];
    }
    let with_last = |order: Vec<usize>| (0..m).map(move |at| [&order[..at], &[m - 1], &order[at..]].concat());
    orders(m - 1).into_iter().flat_map(with_last).collect()
}

fn said(first: &Card, second: &Card) -> bool {
    alike(First, first, First, second).expect("good cards")
}

/// Alike exactly where one of all m! orders carries the columns of the first to those of the second, and for each such order the lists match. Each order
/// carries a card to one card.
#[test]
fn small_cards() {
    let cards: Vec<Listed> = (2..=6).flat_map(every_card).map(Listed::of).collect();
    let orders: Vec<Vec<Vec<usize>>> = (0..6).map(orders).collect();
    for first in &cards {
        let (m, mut found) = (first.columns.len(), 0);
        for second in cards.iter().filter(|second| second.card[..2] == first.card[..2]) {
            let carrying: Vec<&Vec<usize>> = orders[m].iter().filter(|order| first.carried_by(order, second)).collect();
            assert_eq!(said(&first.card, &second.card), !carrying.is_empty(), "{:?}, {:?}", first.card, second.card);
            carrying.iter().for_each(|order| first.lists_match(order, second));
            found += carrying.len();
        }
        assert_eq!(found, (1..=m).product(), "{:?}", first.card);
    }
}

/// The columns with one of them changed, by one data disk or by any.
fn one_changed(choice: &mut Choice, k: usize, columns: &[u16]) -> Vec<u16> {
    let (at, one_disk) = (choice.below(columns.len()), choice.one_in(3));
    let mut changed = columns.to_vec();
    while changed[at] == 0 || changed[at] == columns[at] {
        let disks = if one_disk { 1 << choice.below(k) } else { choice.below(1 << k) };
        changed[at] = columns[at] ^ disks as u16;
    }
    changed
}

/// Up to 16 + 16 disks, half of them with columns that stand more than once: in another order they are alike, and by that order the lists match and
/// the disks interchange; with one column changed they are not.
#[test]
fn any_cards() {
    let mut choice = Choice::named("alike, any cards");
    for turn in 0..600 {
        let (k, m) = if turn % 15 == 0 { (16, 16) } else { (2 + choice.below(15), 1 + choice.below(16)) };
        let make = if turn % 2 == 0 { any_columns } else { repeated_columns };
        let columns = make(&mut choice, k, m);
        let mut order: Vec<usize> = (0..m).collect();
        (1..m).for_each(|at| order.swap(at, choice.below(at + 1)));
        let mut moved = vec![0; m];
        (0..m).for_each(|j| moved[order[j]] = columns[j]);
        let (first, second) = (Listed::of(card_of(k, m, &columns)), Listed::of(card_of(k, m, &moved)));
        assert!(said(&first.card, &second.card) && said(&second.card, &first.card), "{columns:?}, {moved:?}");
        first.lists_match(&order, &second);
        first.strips_match(&order, &second, &choice.bytes(5 * k));
        let other = card_of(k, m, &one_changed(&mut choice, k, &moved));
        assert!(!said(&first.card, &other) && !said(&other, &first.card), "{:?}, {other:?}", first.card);
    }
}

/// What two cards answer, either one first.
fn by_hand(first: Card, second: Card, answer: bool) {
    for (card, other) in [(first.clone(), second.clone()), (second, first)] {
        worked("alike", Input { card, other, ..Input::default() }, 256 * u64::from(answer), Vec::new());
    }
}

fn equal_vectors(first: &Card, second: &Card) -> bool {
    Listed::of(first.clone()).told.vector == Listed::of(second.clone()).told.vector
}

#[test]
fn cards_by_hand() {
    by_hand(c1(), c1(), true);
    by_hand(c1(), card_of(4, 3, &[13, 7, 11]), true);
    by_hand(card_of(16, 2, &[0x8001, 0x0180]), card_of(16, 2, &[0x0180, 0x8001]), true);
    // the bytes of columns in another order
    by_hand(card_of(16, 2, &[0x8001, 0x0180]), card_of(16, 2, &[0x0180, 0x0180]), false);
    by_hand(card_of(16, 1, &[0x0102]), card_of(16, 1, &[0x0201]), false);
    // the same set of columns, not as often each
    by_hand(card_of(2, 3, &[1, 1, 2]), card_of(2, 3, &[1, 2, 2]), false);
    // equal sum and XOR
    by_hand(card_of(3, 2, &[1, 6]), card_of(3, 2, &[2, 5]), false);
    // another k, another m
    by_hand(card_of(1, 2, &[1, 1]), card_of(2, 2, &[1, 1]), false);
    by_hand(card_of(2, 2, &[1, 1]), card_of(2, 3, &[1, 1, 1]), false);
    by_hand(card_of(2, 2, &[1, 2]), card_of(2, 1, &[3]), false);
}

/// Equal vectors are not enough. {1, 3} and {3, 3} have 0 1 2; with data disks 0 and 1 swapped C1 has the columns 7, 11 and 14, and C6 has column 2.
#[test]
fn by_vectors_alone() {
    let pairs = [(2, vec![1, 3], vec![3, 3]), (4, vec![7, 11, 13], vec![7, 11, 14]), (2, vec![1], vec![2])];
    for (k, first, second) in pairs {
        let (first, second) = (card_of(k, first.len(), &first), card_of(k, second.len(), &second));
        assert!(equal_vectors(&first, &second), "{first:?}, {second:?}");
        by_hand(first, second, false);
    }
    assert_eq!(Listed::of(card_of(2, 2, &[1, 3])).told.vector[..4], [0, 1, 2, 0]);
}

/// Each of 16 columns alone different by each data disk of 16, where all columns are equal and where no two are.
#[test]
fn one_disk_of_16_columns() {
    for columns in [vec![0xffff; 16], (0xfff0..=0xffff).collect()] {
        let first = card_of(16, 16, &columns);
        let turned: Vec<u16> = columns.iter().rev().copied().collect();
        by_hand(first.clone(), card_of(16, 16, &turned), true);
        by_hand(first.clone(), card_of(16, 16, &[&turned[..15], &[1]].concat()), false);
        for (at, disk) in (0..16).flat_map(|at| (0..16).map(move |disk| (at, disk))) {
            let mut other = turned.clone();
            other[at] ^= 1 << disk;
            let other = card_of(16, 16, &other);
            assert!(!said(&first, &other) && !said(&other, &first), "{first:?}, {other:?}");
        }
    }
}

/// With each number of columns, and at each place: a column gives way to a second one of another, and in the second card to a second one of a third. Both
/// have the same set of columns, and are not alike; in another order each is alike to itself.
#[test]
fn twice_at_each_place() {
    for m in 3..=16 {
        let twice = |at: usize, of: usize| {
            let mut columns: Vec<u16> = (1..=m as u16).collect();
            columns[at] = columns[of];
            columns
        };
        for (at, one, other) in (0..m * m * m).map(|number| (number / m / m, number / m % m, number % m)) {
            if at == one || at == other || one == other {
                continue;
            }
            let (first, second) = (card_of(16, m, &twice(at, one)), card_of(16, m, &twice(at, other)));
            let turned: Vec<u16> = twice(at, one).into_iter().rev().collect();
            assert!(!said(&first, &second), "{first:?}, {second:?}");
            assert!(said(&first, &card_of(16, m, &turned)), "{first:?}, {turned:?}");
        }
    }
}

/// The first card's fault is answered, then the second's, with the number of its column.
#[test]
fn refusals_in_order() {
    let refused = |card: &[u8], other: &[u8], answer| {
        let (card, other) = (Card::first(card.to_vec()), Card::first(other.to_vec()));
        worked("alike", Input { card, other, ..Input::default() }, answer, Vec::new());
    };
    let (good, column) = (&c1()[..], &[2, 2, 1, 0, 4, 0]);
    refused(column, &[], 5 + 256);
    refused(&[], column, 1);
    refused(good, column, 5 + 256);
    refused(column, good, 5 + 256);
    refused(&[4, 3, 7, 0, 11, 0, 16, 0], column, 5 + 512);
    refused(good, &[17], 1);
    refused(good, &[17, 0], 2);
    refused(good, &[4, 0], 3);
    refused(good, &good[..7], 4);
    // another k is no answer where the second card is refused
    refused(&[1, 1, 1, 0], &[2, 1, 0, 0], 5);
}

/// On all cards of up to 5 disks the relation is reflexive, symmetric and transitive.
#[test]
fn an_equivalence() {
    let cards: Vec<Card> = (2..=5).flat_map(every_card).collect();
    let all: Vec<Vec<bool>> = cards.iter().map(|a| cards.iter().map(|b| said(a, b)).collect()).collect();
    for a in 0..cards.len() {
        assert!(all[a][a], "{:?}", cards[a]);
        for b in 0..cards.len() {
            assert_eq!(all[a][b], all[b][a], "{:?}, {:?}", cards[a], cards[b]);
            // then what is alike to the one is alike to the other, and what is not is not
            assert!(!all[a][b] || all[a] == all[b], "{:?}, {:?}", cards[a], cards[b]);
        }
    }
}

/// The row's choices: accepted cards are alike about as often as not, and of those that are not, some have the same set of columns, some an equal sum
/// and XOR of them, some equal vectors.
#[test]
fn choices() {
    let row = TABLE.iter().find(|row| row.name == "alike").expect("the call");
    let mut choice = Choice::named("alike, choices");
    let (mut same, mut other, mut near) = (0, 0, [0; 3]);
    for _ in 0..20_000 {
        let input = (row.any)(&mut choice);
        match (row.reference)(&input).answer {
            256 => same += 1,
            0 => {
                other += 1;
                near.iter_mut().zip(nearness(&input)).for_each(|(times, so)| *times += usize::from(so));
            }
            _ => {}
        }
    }
    let counted = format!("{same} alike, {other} not; by set, by sum and XOR, by vectors {near:?}");
    assert!(same * 2 > other && same < other * 2, "{counted}");
    assert!(near.iter().all(|&times| times * 40 > other), "{counted}");
}

/// Of two cards: the same set of columns, an equal sum and XOR, equal vectors, which are worked out where there are few data disks.
fn nearness(input: &Input) -> [bool; 3] {
    let Said { k, m, columns: first, .. } = read_card(&input.card).expect("a good card");
    let Said { k: other_k, m: other_m, columns: second, .. } = read_card(&input.other).expect("a good card");
    if (k, m) != (other_k, other_m) {
        return [false; 3];
    }
    let sums = |columns: &[u16]| columns.iter().fold((0, 0), |(sum, xor), &c| (sum + u32::from(c), xor ^ c));
    let vector =
        |card: &Card| reference::code(card).map(|code| reference::vector(&code, &reference::minimal_erasures(&code)));
    let inside = |some: &[u16], all: &[u16]| some.iter().all(|column| all.contains(column));
    [
        inside(&first, &second) && inside(&second, &first),
        sums(&first) == sums(&second),
        k <= 8 && vector(&input.card) == vector(&input.other),
    ]
}
