//! The card reader and the card writer.

use super::{c1_of, card_then, ways};
use crate::cards::{any_card, any_columns, card_of, every_card};
use crate::choice::Choice;
use crate::editions::{any_wears, with_wears, worn, EDITIONS};
use crate::input::{bytes_of, code, Input, Told};
use crate::reference::{self, Card, Edition, Said};
use crate::table::{Fault, Row};
use bridgecrumb::ffi;

fn of_card(card: Card) -> Input {
    Input { card, ..Input::default() }
}

pub const READ: Row = Row {
    name: "card_read",
    editions: &EDITIONS,
    any: |choice| of_card(any_card(choice, 16)),
    every: every_read,
    good: |edition| of_card(c1_of(edition)),
    faults: |edition| card_then(edition, []),
    heavy: |_| false,
    engine: |input, lent| {
        let (second, card, card_len) = lent.card(&input.card);
        let (counts, _) = lent.output(2);
        let (columns, _) = lent.output(16);
        let (wears, _) = lent.output(32);
        // SAFETY: each buffer is as long as is said
        unsafe { ffi::bridgecrumb_card_read(second, card, card_len, counts, columns, wears) }
    },
    safe: |input, lent| {
        let (edition, card) = lent.named_card(&input.card);
        let (counts, columns, wears) = (lent.output_slice(2), lent.output_slice(16), lent.output_slice(32));
        code(bridgecrumb::read_card(edition, card).map(|card| {
            counts.copy_from_slice(&[card.k, card.m]);
            columns.copy_from_slice(&card.columns);
            wears.copy_from_slice(&card.wears);
            0
        }))
    },
    reference: |input| {
        Told::of(reference::read_card(&input.card).map(|Said { k, m, mut columns, mut wears }| {
            columns.resize(16, 0);
            wears.resize(32, 0);
            (0, vec![bytes_of(&[k, m], usize::to_le_bytes), bytes_of(&columns, u16::to_le_bytes), wears])
        }))
    },
};

/// The cards of both editions, each of their columns wrong and each of their wears 0, alone and together, and named as of the other edition; of no
/// disks, all first bytes.
fn every_read(n: usize, choice: &mut Choice, then: &mut dyn FnMut(&Input)) {
    for first in every_card(n) {
        let second = worn(choice, &first);
        then(&of_card(Card::second(first.bytes.clone())));
        then(&of_card(Card::first(second.bytes.clone())));
        every_wrong_column(&first, then);
        every_wrong_column(&second, then);
        for at in second.len() - n..second.len() {
            let mut zero = second.clone();
            zero[at] = 0;
            every_wrong_column(&zero, then);
        }
    }
    if n == 0 {
        every_first_bytes(then);
    }
}

/// The card, and each of its columns 0 and with a data disk that the code lacks.
fn every_wrong_column(card: &Card, then: &mut dyn FnMut(&Input)) {
    then(&of_card(card.clone()));
    let at_k = usize::from(card.edition.is_second());
    let (k, m) = (card[at_k], usize::from(card[at_k + 1]));
    for at in (0..m).map(|j| at_k + 2 + 2 * j) {
        for wrong in [0, 1 << k, 1 << 15] {
            let mut card = card.clone();
            card[at..at + 2].copy_from_slice(&u16::to_le_bytes(wrong));
            then(&of_card(card));
        }
    }
}

/// One byte, k and m, and these before columns, in both editions; each first byte of edition 2 before nothing, before good ones and before bad ones.
fn every_first_bytes(then: &mut dyn FnMut(&Input)) {
    for byte in 0..=255 {
        then(&of_card(Card::first(vec![byte])));
        for bytes in [vec![], vec![4], vec![4, 3], vec![0, 0], vec![17, 0, 1], c1_of(Edition::Second)[1..].to_vec()] {
            then(&of_card(Card::second([vec![byte], bytes].concat())));
        }
    }
    every_two_bytes(&mut |k, m, columns| {
        let card = card_of(k, m, columns);
        then(&of_card(with_wears(&card, &vec![1; (k + m).min(40)])));
        then(&of_card(card));
    });
}

fn every_two_bytes(then: &mut dyn FnMut(usize, usize, &[u16])) {
    for k in 0..=255 {
        for m in 0..=255 {
            [0, 1, 2, 16, 17].iter().for_each(|&columns| then(k, m, &[1; 17][..columns]));
        }
    }
}

/// How many wears the writer wants, and how long the card is.
fn lengths(edition: Edition, k: usize, m: usize) -> (usize, usize) {
    match edition {
        Edition::First => (0, 2 + 2 * m),
        Edition::Second => (k + m, 3 + 2 * m + (k + m)),
    }
}

/// What is to be written, with as many wears as this edition wants and a buffer that fits.
fn to_write(edition: Edition, k: usize, m: usize, columns: Vec<u16>, wears: &[u8]) -> Input {
    let (count, out_len) = lengths(edition, k, m);
    let card = Card { edition, bytes: Vec::new() };
    Input { card, k, m, columns, wears: wears[..count].to_vec(), out_len, ..Input::default() }
}

pub const WRITE: Row = Row {
    name: "card_write",
    editions: &EDITIONS,
    any: any_write,
    every: every_write,
    good: |edition| to_write(edition, 4, 3, vec![7, 11, 13], &[3, 1, 4, 2, 5, 9, 6]),
    faults: write_faults,
    heavy: |_| false,
    engine: |input, lent| {
        let (second, k, m) = (input.card.edition.is_second(), input.k, input.m);
        let (columns, columns_len) = lent.read(&input.columns);
        let (wears, wears_len) = lent.read(&input.wears);
        let (out, out_len) = lent.output(input.out_len);
        // SAFETY: each buffer is as long as is said
        unsafe { ffi::bridgecrumb_card_write(second, k, m, columns, columns_len, wears, wears_len, out, out_len) }
    },
    safe: |input, lent| {
        let (columns, wears) = (lent.slice(&input.columns), lent.slice(&input.wears));
        let (edition, out) = (input.card.edition.named(), lent.output_slice(input.out_len));
        code(bridgecrumb::write_card(edition, input.k, input.m, columns, wears, out).map(|()| 0))
    },
    reference: |input| {
        let Input { k, m, columns, wears, .. } = input.clone();
        let card = reference::write_card(input.card.edition, &Said { k, m, columns, wears }, input.out_len);
        Told::of(card.map(|card| (0, vec![card])))
    },
};

/// Refusals 2, 3, 4, 5, 23 and 7; edition 1 has no 23, since any wear is one too many.
fn write_faults(edition: Edition) -> Vec<Vec<Fault>> {
    let (count, len) = lengths(edition, 4, 3);
    let [data, parity] = count_faults();
    let mut other_len = ways(4, vec![0, 2, 4, 3 + 256], |input, &len| input.columns.resize(len, 1));
    let counts = [0, 1, 6, 7, 8, 7 + 256].into_iter().filter(|&wears| wears != count).collect();
    other_len.extend(ways(4, counts, |input, &len| input.wears.resize(len, 1)));
    let mut faults = vec![
        data,
        parity,
        other_len,
        ways(5, vec![0, 16, 0x8000], |input, &column| input.columns[0] = column),
        ways(5 + 256, vec![0, 16], |input, &column| input.columns[1..].fill(column)),
        ways(5 + 512, vec![0xffff], |input, &column| input.columns[2] = column),
    ];
    if edition == Edition::Second {
        faults.push(ways(23, vec![0..1, 6..7, 0..7], |input, disks| input.wears[disks.clone()].fill(0)));
    }
    // 8 and 16 are the lengths of the two editions
    let lens = [0, 7, 8, 9, 15, 16, 17, 8 + 256, 16 + 256].into_iter().filter(|&other| other != len).collect();
    faults.push(ways(7, lens, |input, &len| input.out_len = len));
    faults
}

/// Refusals 2 and 3; the right number is 3 or 4, and twice some of these are small in 64 bits.
pub fn count_faults() -> [Vec<Fault>; 2] {
    let wrong = || vec![0, 17, 255, 256 + 3, 65536 + 3, 1 << 32, 1 << 32 | 3, 1 << 63, 1 << 63 | 3, usize::MAX];
    [ways(2, wrong(), |input, &k| input.k = k), ways(3, wrong(), |input, &m| input.m = m)]
}

/// k or m: mostly right, else wrong by a little or by far.
pub fn any_count(choice: &mut Choice) -> usize {
    match choice.below(12) {
        0 => choice.pick(&[0, 17, 18, 255, 256, 257, 272]),
        1 => choice.far_number(),
        _ => 1 + choice.below(16),
    }
}

fn any_write(choice: &mut Choice) -> Input {
    let edition = choice.pick(&EDITIONS);
    let (k, m) = (any_count(choice), any_count(choice));
    let (right_k, right_m) = (k.clamp(1, 16), m.clamp(1, 16));
    let mut columns = any_columns(choice, right_k, right_m);
    if choice.one_in(5) {
        let at = choice.below(right_m);
        columns[at] = choice.pick(&[0, (1u32 << right_k) as u16, 1 << 15, 0xffff]);
    }
    columns.resize(choice.length(right_m), 1);
    let mut wears = any_wears(choice, right_k + right_m);
    if choice.one_in(6) {
        let at = choice.below(wears.len());
        wears[at] = 0;
    }
    let mut input = to_write(edition, right_k, right_m, columns, &wears);
    (input.k, input.m) = (k, m);
    input.wears.resize(choice.length(input.wears.len()), 1);
    input.out_len = choice.length(input.out_len);
    input
}

/// Every card in both editions: each length of the buffer, each column wrong, each wear 0, each number of wears; of no disks, all k and m.
fn every_write(n: usize, choice: &mut Choice, then: &mut dyn FnMut(&Input)) {
    for card in every_card(n) {
        let Said { k, m, columns, .. } = reference::read_card(&card).expect("a good card");
        for edition in EDITIONS {
            let good = to_write(edition, k, m, columns.clone(), &any_wears(choice, n));
            (0..good.out_len + 3).for_each(|out_len| then(&Input { out_len, ..good.clone() }));
            for (j, wrong) in (0..m).flat_map(|j| [(j, 0), (j, 1 << k), (j, 1 << 15)]) {
                let mut input = good.clone();
                input.columns[j] = wrong;
                then(&input);
            }
            for disk in 0..good.wears.len() {
                let mut input = good.clone();
                input.wears[disk] = 0;
                then(&input);
            }
            (0..n + 2).for_each(|wears| then(&Input { wears: vec![1; wears], ..good.clone() }));
        }
    }
    if n == 0 {
        every_two_bytes(&mut |k, m, columns| {
            for edition in EDITIONS {
                let right = to_write(edition, k, m, columns.to_vec(), &[1; 2 * 255]);
                then(&Input { out_len: lengths(edition, k, columns.len()).1, ..right });
            }
        });
    }
}

/// Whether it takes long to go through all data words.
pub fn large(card: &Card) -> bool {
    matches!(card.code_bytes().first(), Some(11..=16))
}

/// Whether it takes long to go through all sets of parity disks.
pub fn many_parities(card: &Card) -> bool {
    matches!(card.code_bytes().get(1), Some(11..=16))
}

/// The most data disks of a card whose data words are gone through.
pub fn most_k(choice: &Choice) -> usize {
    if choice.rare {
        16
    } else {
        10
    }
}
