//! Document 02, request [9]: of the sets that the engine lists none lies inside another, none is larger than m + 1, and whenever two differ, some listed
//! set lies within the disks that belong to just one of them. The claims are tried on the list alone, pair by pair.

use crate::listed::listed;
use calls::cards::{c1, card_of, every_card, good_card};
use calls::choice::Choice;
use calls::reference::Card;
use std::fs;
use std::path::Path;

fn inside(set: u32, other: u32) -> bool {
    set & !other == 0
}

/// Of two sets of a list that differ: neither lies inside the other; some set of the list lies within the disks of just one.
fn pair_holds(list: &[u32], one: u32, other: u32) -> [bool; 2] {
    let apart = !inside(one, other) && !inside(other, one);
    let third = list.iter().any(|&set| inside(set, one ^ other));
    [apart, third]
}

fn none_larger(list: &[u32], most: u32) -> bool {
    list.iter().all(|set| set.count_ones() <= most)
}

fn pairs(list: &[u32]) -> impl Iterator<Item = (u32, u32)> + '_ {
    let later = move |at: usize| list[at + 1..].iter().map(move |&other| (list[at], other));
    (0..list.len()).flat_map(later)
}

/// Whether the list meets the three claims, in the request's order.
fn claims(list: &[u32], m: u32) -> [bool; 3] {
    let held = pairs(list).fold([true; 2], |[apart, third], (one, other)| {
        let now = pair_holds(list, one, other);
        [apart && now[0], third && now[1]]
    });
    [held[0], none_larger(list, m + 1), held[1]]
}

fn parities(card: &[u8]) -> u32 {
    card[1].into()
}

/// All pairs of entries of each card; prints how many there were.
fn try_all_pairs(name: &str, cards: &[Card]) {
    let (mut tried, mut overlapping) = (0, 0);
    for card in cards {
        let (_, list) = listed(card);
        assert!(!list.is_empty(), "{card:?}");
        assert_eq!(claims(&list, parities(card)), [true; 3], "{card:?}");
        tried += pairs(&list).count();
        overlapping += pairs(&list).filter(|(one, other)| one & other != 0).count();
    }
    println!("circuits, {name}: {} cards, {tried} pairs of entries, {overlapping} overlapping", cards.len());
}

#[test]
fn small_cards() {
    let cards: Vec<Card> = (2..=7).flat_map(every_card).collect();
    try_all_pairs("up to 7 disks", &cards);
}

#[test]
fn sample_cards() {
    let samples = Path::new(env!("CARGO_MANIFEST_DIR")).join("../../samples");
    let files = fs::read_dir(samples).expect("the samples").map(|file| file.expect("a file").path());
    let cards = files.filter(|path| path.extension().map_or(false, |end| end == "card"));
    let cards: Vec<Card> = cards.map(|path| Card::first(fs::read(path).expect("a card"))).collect();
    assert!(cards.contains(&c1()));
    try_all_pairs("samples", &cards);
}

/// Up to 16 + 16 disks: the size of every entry, and pairs of entries by chance, most of which overlap.
#[test]
fn any_cards() {
    let mut choice = Choice::named("circuits, any cards");
    let (mut tried, mut overlapping) = (0, 0);
    for _ in 0..400 {
        let card = good_card(&mut choice, 16, 16);
        let (_, list) = listed(&card);
        assert!(none_larger(&list, parities(&card) + 1), "{card:?}");
        for _ in 0..100 {
            let (one, other) = (choice.pick(&list), choice.pick(&list));
            if one != other {
                assert_eq!(pair_holds(&list, one, other), [true; 2], "{card:?}, {one} and {other}");
                tried += 1;
                overlapping += usize::from(one & other != 0);
            }
        }
    }
    assert!(tried > 30_000 && overlapping * 2 > tried, "{overlapping} of {tried} pairs overlap: the choice is poor");
}

/// C1's entries 50 and 67 have disk 1 in common. The disks of just one of them are 113, which is listed; no other listed set lies within them.
#[test]
fn a_third_by_hand() {
    let (_, list) = listed(&c1());
    assert!(list.contains(&50) && list.contains(&67));
    let within: Vec<u32> = list.into_iter().filter(|&set| inside(set, 50 ^ 67)).collect();
    assert_eq!(within, [113]);
}

/// Lists that are not the engine's, and the claims that they meet.
#[test]
fn bent_lists() {
    // C3 with 15 listed, in which 5 lies, and which has more than m + 1 disks
    let (_, list) = listed(&card_of(2, 2, &[1, 2]));
    assert_eq!(claims(&[&list[..], &[15]].concat(), 2), [false, false, true]);
    // 18 and 36 with no disk in common, and 54, which is both
    let (_, list) = listed(&card_of(3, 3, &[1, 3, 4]));
    assert!(list.contains(&18) && list.contains(&36));
    assert_eq!(claims(&[&list[..], &[54]].concat(), 3), [false, true, true]);
    // C4, whose entry has 3 disks, held to 2
    let (_, list) = listed(&card_of(1, 2, &[1, 1]));
    assert_eq!(claims(&list, 1), [true, false, true]);
    // C1 cut at size m, and C1 without each of its entries
    let (_, list) = listed(&c1());
    let cut: Vec<u32> = list.iter().copied().filter(|set| set.count_ones() <= 3).collect();
    assert_eq!(claims(&cut, 3), [true, true, false]);
    for at in 0..list.len() {
        assert_eq!(claims(&[&list[..at], &list[at + 1..]].concat(), 3), [true, true, false], "without {}", list[at]);
    }
}
