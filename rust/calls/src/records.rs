//! Record files: good ones by the reference, and files damaged in a field or more, cut off, lengthened, or only alike at their beginning.

use crate::cards::{any_set, c1, card_of, card_of_size, disks_of, good_card};
use crate::choice::Choice;
use crate::editions::worn;
use crate::input::Input;
use crate::reference::{records, Card};
use crate::stripes::LONG;

/// The record of a card with any bytes in its strips.
pub fn record_of(choice: &mut Choice, card: &Card, strip_len: usize, lost: u32) -> Vec<u8> {
    let stripe = choice.bytes(disks_of(card) * strip_len);
    records::write(card, strip_len, lost, &stripe, usize::MAX).expect("a record")
}

/// The number of so many bytes at a place, low byte first.
pub fn number_at(file: &[u8], at: usize, width: usize) -> u64 {
    (0..width).rev().fold(0, |number, i| number << 8 | u64::from(file[at + i]))
}

pub fn put(file: &mut [u8], at: usize, width: usize, number: u64) {
    file[at..at + width].copy_from_slice(&number.to_le_bytes()[..width]);
}

/// Where the strips of a good record begin.
pub fn strips_at(file: &[u8]) -> usize {
    (number_at(file, 12, 4) + number_at(file, 16, 4)) as usize
}

/// A good record, damaged or not; where it isn't, its strips may stand on closed pages.
pub fn any_file(choice: &mut Choice) -> Input {
    let kind = choice.below(16);
    let most = choice.pick(&[2, 4, 16]);
    let card = good_card(choice, most, most);
    let lost = any_set(choice, &card) & (((1u64 << (card[0] + card[1])) - 1) as u32);
    let chosen = choice.strip_len;
    let strip_len = match chosen {
        Some(strip_len) => strip_len,
        None if choice.rare && choice.one_in(8) => choice.pick(&LONG),
        None => 1 + choice.below(if kind == 2 { 300 } else { 20 }),
    };
    let mut file = record_of(choice, &card, strip_len, lost);
    let mut closed = 0;
    match kind {
        0 | 1 => file = any_string(choice, file),
        2 | 3 => {}
        4 => closed = file.len() - strips_at(&file),
        5 => file = of_edition_2(choice, &card, 1 + strip_len % 20),
        _ => (0..choice.pick(&[1, 1, 2, 2, 3])).for_each(|_| damage(choice, &mut file, strip_len)),
    }
    Input { file, closed, ..Input::default() }
}

/// Near what stands there, near a limit, or anything.
fn any_value(choice: &mut Choice, old: u64, width: usize, strip_len: usize) -> u64 {
    const LIMITS: [u64; 15] = [0, 1, 2, 3, 16, 17, 32, 33, 34, 255, 65535, 65536, 65537, 0x8000_0000, 0xffff_ffff];
    match choice.below(8) {
        0 => old.wrapping_add(1),
        1 => old.wrapping_sub(1),
        2 => old.wrapping_add(strip_len as u64),
        3 => old.wrapping_sub(strip_len as u64),
        4 | 5 => old ^ 1 << choice.below(8 * width),
        6 => choice.pick(&LIMITS),
        _ => choice.number(),
    }
}

/// A field, the length, or a strip's place in all fields but one; often so that other fields still fit.
fn damage(choice: &mut Choice, file: &mut Vec<u8>, strip_len: usize) {
    if file.len() < 20 {
        return file.extend(choice.bytes(30));
    }
    let entries = (number_at(file, 8, 2) as usize).clamp(1, (file.len() - 10) / 10);
    let entry = 10 + 10 * choice.below(entries);
    let (at, width) = match choice.below(16) {
        0 => (choice.below(4), 1),
        1 => (4, 4),
        2 => (8, 2),
        3..=6 => choice.pick(&[(entry, 1), (entry + 1, 1), (entry + 2, 4), (entry + 6, 4)]),
        7 => choice.pick(&[(10, 1), (11, 1), (12, 4), (16, 4)]),
        8 | 9 => ((10 + 10 * entries + choice.below(10)).min(file.len() - 1), 1),
        10 => (choice.below(file.len()), 1),
        11 => return file.truncate(choice.below(file.len() + 1)),
        12 => return file.truncate(file.len() - 1 - choice.below(20).min(strip_len)),
        13 => {
            let more = choice.pick(&[1, 2, strip_len, 256]);
            return file.extend(choice.bytes(more));
        }
        14 => return lose(choice, file, entries),
        _ => {
            // two entries change places
            let other = 10 + 10 * choice.below(entries);
            return (0..10).for_each(|at| file.swap(entry + at, other + at));
        }
    };
    let wrong = any_value(choice, number_at(file, at, width), width, strip_len);
    put(file, at, width, wrong);
}

/// A strip said to be lost and every later offset put right, but its body taken out only half of the time.
fn lose(choice: &mut Choice, file: &mut Vec<u8>, entries: usize) {
    let lost = 10 + 10 * choice.below(entries);
    let (start, len) = (number_at(file, lost + 2, 4) as usize, number_at(file, lost + 6, 4) as usize);
    if file[lost] != 1 || start + len > file.len() {
        return;
    }
    file[lost] = 2;
    file[lost + 2..lost + 10].fill(0);
    for later in (lost + 10..10 + 10 * entries).step_by(10).filter(|&later| later + 6 <= start) {
        if file[later] == 1 {
            let moved = number_at(file, later + 2, 4).wrapping_sub(len as u64);
            put(file, later + 2, 4, moved);
        }
    }
    if choice.one_in(2) {
        file.drain(start..start + len);
    }
}

/// Bytes that begin as a record does, up to some place.
fn any_string(choice: &mut Choice, mut record: Vec<u8>) -> Vec<u8> {
    let (from, len) = (choice.below(record.len()), choice.below(400));
    record.truncate(from);
    record.extend(choice.bytes(len));
    record
}

/// Good records of small codes that are damaged in every way: of all cards of up to 3 disks with each lost set, and of C1.
pub fn small_records(n: usize, choice: &mut Choice) -> Vec<Vec<u8>> {
    if n == 7 {
        return [(1, 0), (3, 0x24), (2, 0x7f)].iter().map(|&(len, lost)| record_of(choice, &c1(), len, lost)).collect();
    }
    let cards = match n {
        2 => vec![card_of(1, 1, &[1])],
        3 => [card_of(1, 2, &[1, 1])].into_iter().chain((1..4).map(|column| card_of(2, 1, &[column]))).collect(),
        _ => Vec::new(),
    };
    let mut files = Vec::new();
    for card in cards {
        for lost in 0..1 << n {
            files.extend((1..=2).map(|strip_len| record_of(choice, &card, strip_len, lost)));
        }
    }
    files
}

/// A file as it is, and with each byte changed to each other value, each two bytes changed, other lengths, and the strip lengths
/// and lost sets of other records.
pub fn every_damage(file: &[u8], choice: &mut Choice, then: &mut dyn FnMut(&[u8])) {
    let mut damaged = file.to_vec();
    then(file);
    for at in 0..file.len() {
        for value in 0..=255 {
            damaged[at] = value;
            then(&damaged);
        }
        damaged[at] = file[at];
        for other in 0..at {
            for (one, two) in [(1, 1), (1, 255), (255, 1), (3, 3)] {
                damaged[at] = file[at].wrapping_add(one);
                damaged[other] = file[other].wrapping_add(two);
                then(&damaged);
            }
            damaged[other] = file[other];
        }
        damaged[at] = file[at];
    }
    for len in 0..file.len() + 20 {
        damaged.resize(len, 1);
        damaged[..len.min(file.len())].copy_from_slice(&file[..len.min(file.len())]);
        then(&damaged);
    }
    let card = Card::first(file[number_at(file, 12, 4) as usize..strips_at(file)].to_vec());
    for strip_len in 1..=6 {
        for lost in 0..1 << (card[0] + card[1]) {
            let mut other = record_of(choice, &card, strip_len, lost);
            other.resize(file.len(), 7);
            then(&other);
        }
    }
}

/// Files that are right in all but that E is not n + 1, also a byte longer and with a wrong last column; and one whose card and first strip
/// can be taken for the entry that it lacks.
pub fn other_counts(choice: &mut Choice, then: &mut dyn FnMut(&[u8])) {
    for _ in 0..40 {
        let card = good_card(choice, 16, 16);
        for entries in 1..=40 {
            let mut file = with_entries(&card, 1 + choice.below(3), entries);
            then(&file);
            file.push(0);
            then(&file);
            file.pop();
            let last = 10 + 10 * entries + card.len() - 2;
            file[last..last + 2].fill(0);
            then(&file);
        }
    }
    let strip_len = 65537 - 46;
    let mut file = with_entries(&card_of(1, 2, &[1, 1]), strip_len, 3);
    file[20..30].copy_from_slice(&[2, 0, 0, 0, 0, 0, 0, 0, 0, 0]);
    put(&mut file, 32, 4, 46);
    put(&mut file, 46, 4, strip_len as u64);
    file.truncate(46 + 2 * strip_len);
    then(&file);
}

/// What would be the record of the card in edition 2, were there such; with as many entries as it has disks, or as its bytes would have in
/// edition 1.
fn of_edition_2(choice: &mut Choice, card: &Card, strip_len: usize) -> Vec<u8> {
    let entries = 1 + choice.pick(&[disks_of(card), 2 + usize::from(card[0])]);
    with_entries(&worn(choice, card), strip_len, entries)
}

/// Cards of edition 2 in records: with k = 3m + 1 their length is right in edition 1, in which they have 2 data disks.
pub fn other_editions(choice: &mut Choice, then: &mut dyn FnMut(&[u8])) {
    for m in 1..=16 {
        for k in [1, 2, 3, 3 * m + 1, 16] {
            let card = card_of_size(choice, k.min(16), m);
            (0..8).for_each(|_| then(&of_edition_2(choice, &card, 2)));
        }
    }
}

/// The record of the card with so many entries; disks that the code lacks are lost.
fn with_entries(card: &[u8], strip_len: usize, entries: usize) -> Vec<u8> {
    let card_at = 10 + 10 * entries;
    let mut file = vec![0; card_at];
    for (at, width, number) in
        [(0, 4, 0x3143_5846), (4, 4, strip_len), (8, 2, entries), (12, 4, card_at), (16, 4, card.len())]
    {
        put(&mut file, at, width, number as u64);
    }
    file.extend(card);
    for disk in 0..entries - 1 {
        let there = disk < usize::from(card[0] + card[1]);
        let fields = if there { [1, disk, file.len(), strip_len] } else { [2, disk, 0, 0] };
        for ((at, width), number) in [(0, 1), (1, 1), (2, 4), (6, 4)].into_iter().zip(fields) {
            put(&mut file, 20 + 10 * disk + at, width, number as u64);
        }
        file.resize(file.len() + fields[3], 5);
    }
    file
}
