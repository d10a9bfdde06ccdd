//! How planted faults bend an answer or what is written.

use crate::cards::card_of;
use crate::input::{bytes_of, Input};
use crate::lent::Lent;
use crate::reference::stepped::{columns, parity_sets};
use crate::reference::turns::lost_slots;
use crate::reference::{code, equations, minimal_erasures, read_card, vector, wear, Card, Edition};
use crate::rows::cards::large;
use crate::table::Engine;
use std::cmp::Reverse;
use std::collections::BTreeSet;

/// The call, and where it answers this number, something more with its value.
pub fn after(engine: Engine, input: &Input, lent: &mut Lent, number: u64, more: impl FnOnce(&mut Lent, usize)) -> u64 {
    let answer = engine(input, lent);
    if answer % 256 == number {
        more(lent, answer as usize / 256);
    }
    answer
}

/// Another answer than this number for some inputs.
pub fn instead(engine: Engine, input: &Input, lent: &mut Lent, number: u64, some: bool, other: u64) -> u64 {
    match engine(input, lent) {
        answer if answer % 256 == number && some => other,
        answer => answer,
    }
}

/// The count of a list of more than so many entries, in codes of more than so many disks, is one less, also where it is the count needed.
pub fn one_less(engine: Engine, input: &Input, lent: &mut Lent, entries: u64, more_than: usize) -> u64 {
    match engine(input, lent) {
        answer if [0, 10].contains(&(answer % 256)) && answer / 256 > entries && disks(input) > more_than => {
            answer - 256
        }
        answer => answer,
    }
}

/// A call that lists, and something done to its slice where it is accepted.
pub fn listed(engine: Engine, input: &Input, lent: &mut Lent, change: impl FnOnce(&mut [u32], usize)) -> u64 {
    after(engine, input, lent, 0, |lent, count| {
        let bytes = lent.written(0);
        let mut out: Vec<u32> = bytes.chunks(4).map(|four| u32::from_le_bytes(four.try_into().unwrap())).collect();
        change(&mut out, count);
        bytes.copy_from_slice(&bytes_of(&out, u32::to_le_bytes));
    })
}

pub fn disks(input: &Input) -> usize {
    input.card.code_bytes().iter().take(2).map(|&count| usize::from(count)).sum()
}

/// k, and the columns, of an accepted card.
fn code_of(input: &Input) -> (usize, Vec<u16>) {
    read_card(&input.card).map(|said| (said.k, said.columns)).expect("an accepted card")
}

/// Whether the writer's buffer has another length than the card.
pub fn other_buffer(input: &Input) -> bool {
    let (k, m) = (input.k as u128, input.m as u128);
    let right = if input.card.edition == Edition::Second { 3 + 2 * m + k + m } else { 2 + 2 * m };
    input.out_len as u128 != right
}

pub fn last_wrong_column(input: &Input, answer: u64) -> u64 {
    let columns = input.card.code_bytes().get(2..).unwrap_or(&[]).chunks(2);
    match columns.clone().rposition(|column| column == [0, 0]) {
        Some(last) if answer % 256 == 5 => 5 + 256 * (last as u64),
        _ => answer,
    }
}

/// Writes the card of parity sets in lexicographic order.
pub fn lowest_first(input: &Input, card: &mut [u8]) {
    let mut sets = parity_sets(input.distance, input.m);
    sets.sort_by_key(|set| (set.count_ones(), Reverse(set.reverse_bits())));
    card.copy_from_slice(&card_of(input.k, input.m, &columns(input.m, &sets[..input.k])));
}

/// Whether the cards have as many disks and the same vector; where that takes long it is not looked at.
pub fn equal_vectors(input: &Input) -> bool {
    let vector_of = |card: &Card| code(card).map(|code| vector(&code, &minimal_erasures(&code)));
    let counts = |card: &Card| card.code_bytes().iter().take(2).copied().collect::<Vec<u8>>();
    !large(&input.card)
        && counts(&input.card) == counts(&input.other)
        && vector_of(&input.card) == vector_of(&input.other)
}

/// Whether the cards have as many disks and the same columns, where one that stands twice counts once.
pub fn equal_sets(input: &Input) -> bool {
    let set_of = |card: &Card| read_card(card).map(|said| (said.k, said.m, BTreeSet::from_iter(said.columns)));
    set_of(&input.card) == set_of(&input.other)
}

/// Whether a file with a card has another number of entries than the card's disks need.
pub fn other_count(file: &[u8]) -> bool {
    let card = 10 + 10 * usize::from(file.get(8).copied().unwrap_or(0));
    file.get(card..card + 2).map_or(false, |counts| file[8] != counts[0].wrapping_add(counts[1]).wrapping_add(1))
}

/// The file with 0 for the offset of each lost strip.
pub fn without_offsets(input: &Input) -> Input {
    let mut other = input.clone();
    let (start, entries) = (other.file.len().min(20), usize::from(input.file[8]).saturating_sub(1));
    for entry in other.file[start..].chunks_exact_mut(10).take(entries).filter(|entry| entry[0] == 2) {
        entry[2..6].fill(0);
    }
    other
}

/// Takes the last data disk out of the parities again.
pub fn without_last_disk(input: &Input, stripe: &mut [u8]) {
    let ((k, columns), length) = (code_of(input), input.strip_len);
    let (data, parity) = stripe.split_at_mut(k * length);
    for (j, column) in columns.iter().enumerate() {
        if column >> (k - 1) & 1 == 1 {
            for t in 0..length {
                parity[j * length + t] ^= data[(k - 1) * length + t];
            }
        }
    }
}

/// The parities after the first that names the disk get their old bytes again.
pub fn first_parity_alone(input: &Input, stripe: &mut [u8]) {
    let (k, columns) = code_of(input);
    let first = columns.iter().take_while(|&column| column >> input.disk & 1 == 0).count();
    let later = (k + first + 1) * input.strip_len;
    stripe.iter_mut().zip(&input.stripe).skip(later).for_each(|(byte, old)| *byte = *old);
}

/// The number of a stripe that is turned the other way.
pub fn other_way(input: &Input) -> u32 {
    let n = disks(input).max(1) as u32;
    n - input.r % n
}

/// Puts each strip where it is turned to by a sum of 32 bits.
pub fn added_in_32_bits(input: &Input, turned: &mut [u8]) {
    let (n, strip_len) = (disks(input), input.strip_len);
    for (disk, strip) in input.stripe.chunks(strip_len).enumerate() {
        let slot = input.r.wrapping_add(disk as u32) as usize % n;
        turned[slot * strip_len..(slot + 1) * strip_len].copy_from_slice(strip);
    }
}

/// The input with the slots whose disks have the numbers of its lost slots; those that the code lacks stay.
pub fn slots_as_disks(input: &Input) -> Input {
    let n = disks(input);
    if !(1..=32).contains(&n) {
        return input.clone();
    }
    let outside = (u64::from(input.slots) >> n << n) as u32;
    Input { slots: lost_slots(n, input.r, input.slots) | outside, ..input.clone() }
}

/// Reads the byte behind a buffer.
pub fn touch_behind(buffer: &[u8]) {
    // SAFETY: there is none where the buffer ends at a closed page, and that is what is to be noticed
    unsafe { std::ptr::read_volatile(buffer.as_ptr_range().end) };
}

/// Another equation than the one of least wear: the last among the survivors by this order of the listed ones.
pub fn least_by(engine: Engine, input: &Input, lent: &mut Lent, order: impl Fn(&[u8], u32) -> u32) -> u64 {
    let answer = engine(input, lent);
    if answer % 256 != 0 || large(&input.card) {
        return answer;
    }
    let (code, wears) = (code(&input.card).expect("a code"), read_card(&input.card).expect("a card").wears);
    let list = equations(&code, input.disk).expect("a disk");
    let left = list.iter().rev().filter(|&equation| equation & (input.set | 1 << input.disk) == 0);
    256 * u64::from(*left.min_by_key(|&&equation| order(&wears, equation)).expect("an equation"))
}

/// The total where each disk has the wear of the next one.
pub fn neighbours_wear(wears: &[u8], set: u32) -> u32 {
    let mut turned = wears.to_vec();
    turned.rotate_left(1);
    wear::total(&turned, set)
}
