//! The record file: its bytes one after the other, and its faults in the order that document 01 gives them. Its card has edition 1.

use super::{outline, read_card, refusal, strips, Card, Refusal, Said};
use std::ops::Range;

const MARK: [u8; 4] = [0x46, 0x58, 0x43, 0x31];

/// What the reader answers, and where the strips are.
#[derive(Debug, Clone, PartialEq, Eq)]
pub struct Read {
    pub k: usize,
    pub m: usize,
    pub columns: Vec<u16>,
    pub strip_len: usize,
    pub lost: u32,
    /// For each disk where its strip stands in the file; none for a lost one.
    pub bodies: Vec<Option<Range<usize>>>,
}

/// A number low byte first.
fn low_first(mut number: usize, bytes: usize) -> Vec<u8> {
    let mut written = Vec::new();
    for _ in 0..bytes {
        written.push((number % 256) as u8);
        number /= 256;
    }
    assert_eq!(number, 0, "the number has more bytes");
    written
}

fn number_at(file: &[u8], at: usize, bytes: usize) -> usize {
    (0..bytes).rev().fold(0, |number, i| number * 256 + usize::from(file[at + i]))
}

fn entry(kind: u8, disk: usize, offset: usize, length: usize) -> Vec<u8> {
    [vec![kind], low_first(disk, 1), low_first(offset, 4), low_first(length, 4)].concat()
}

/// The writer: the record's bytes.
pub fn write(card: &[u8], strip_len: usize, lost: u32, stripe: &[u8], out_len: usize) -> Result<Vec<u8>, Refusal> {
    let code = outline(&Card::first(card.to_vec()))?;
    strips::check(&code, strip_len, lost, stripe.len())?;
    let entries = code.n() + 1;
    let mut record = [&MARK[..], &low_first(strip_len, 4), &low_first(entries, 2)].concat();
    let mut bodies = card.to_vec();
    let bodies_start = 10 + 10 * entries;
    record.extend(entry(0, 0, bodies_start, card.len()));
    for disk in 0..code.n() {
        if lost >> disk & 1 == 1 {
            record.extend(entry(2, disk, 0, 0));
        } else {
            record.extend(entry(1, disk, bodies_start + bodies.len(), strip_len));
            bodies.extend(&stripe[disk * strip_len..(disk + 1) * strip_len]);
        }
    }
    record.extend(bodies);
    if out_len < record.len() {
        return refusal(16);
    }
    Ok(record)
}

/// The reader.
pub fn read(file: &[u8]) -> Result<Read, Refusal> {
    if file.len() < 10 || file[..4] != MARK {
        return refusal(13);
    }
    let strip_len = number_at(file, 4, 4);
    if !(1..=65536).contains(&strip_len) {
        return refusal(6);
    }
    let entries = number_at(file, 8, 2);
    if !(3..=33).contains(&entries) || file.len() < 10 + 10 * entries {
        return refusal(14);
    }
    let field = |entry: usize, at: usize, bytes: usize| number_at(file, 10 + 10 * entry + at, bytes);
    let fields = |entry: usize| [field(entry, 0, 1), field(entry, 1, 1), field(entry, 2, 4), field(entry, 6, 4)];

    let [kind, disk, card_at, card_len] = fields(0);
    if kind != 0 || disk != 0 || card_at != 10 + 10 * entries || card_at + card_len > file.len() {
        return refusal(14);
    }
    let card = Card::first(file[card_at..card_at + card_len].to_vec());
    let Said { k, m, columns, .. } = read_card(&card)?;
    if entries != k + m + 1 {
        return refusal(14);
    }
    let mut lost = 0;
    let mut next = card_at + card_len;
    let mut bodies = Vec::new();
    for d in 0..k + m {
        let told = fields(d + 1);
        if told == [1, d, next, strip_len] {
            bodies.push(Some(next..next + strip_len));
            next += strip_len;
        } else if told == [2, d, 0, 0] {
            bodies.push(None);
            lost |= 1 << d;
        } else {
            return refusal(14);
        }
    }
    if file.len() != next {
        return refusal(15);
    }
    Ok(Read { k, m, columns, strip_len, lost, bodies })
}

/// The body call: where the strip stands in the file.
pub fn body(file: &[u8], disk: usize) -> Result<Range<usize>, Refusal> {
    let bodies = read(file)?.bodies;
    match bodies.get(disk) {
        None => refusal(9),
        Some(None) => refusal(16),
        Some(Some(place)) => Ok(place.clone()),
    }
}
