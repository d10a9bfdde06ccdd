//! The calls on record files.

use super::strips::{good_stripe, long};
use super::{card_then, disk_faults, set_faults, strip_len_faults, stripe_faults, ways};
use crate::cards::{any_card, any_disk, any_set, disks_of, every_card};
use crate::choice::Choice;
use crate::input::{bytes_of, code, Input, Told};
use crate::records::{any_file, every_damage, other_counts, other_editions, put, small_records};
use crate::reference::{records, Card, Edition};
use crate::stripes::{any_strip_len, any_stripe};
use crate::table::{Fault, Row};
use bridgecrumb::ffi;

pub const WRITE: Row = Row {
    name: "record_write",
    editions: &[Edition::First],
    any: |choice| {
        let card = any_card(choice, 16);
        let strip_len = any_strip_len(choice);
        let set = any_set(choice, &card);
        let stripe = any_stripe(choice, &card, strip_len, set);
        let out_len = choice.length(record_len(&card, if strip_len > 65536 { 1 } else { strip_len }, set));
        Input { card, strip_len, set, stripe, out_len, ..Input::default() }
    },
    every: every_write,
    good: |edition| Input { set: 0x24, out_len: 113, ..good_stripe(edition) },
    faults: |edition| {
        let short = ways(16, vec![112, 98, 97, 0], |input, &len| input.out_len = len);
        card_then(edition, [strip_len_faults(), set_faults(), stripe_faults(), short])
    },
    heavy: long,
    engine: |input, lent| {
        let (card, card_len) = lent.read(&input.card);
        let (stripe, stripe_len) = lent.read(&input.stripe);
        let (out, out_len) = lent.output(input.out_len);
        let (strip_len, lost) = (input.strip_len, input.set);
        // SAFETY: each buffer is as long as is said
        unsafe { ffi::bridgecrumb_record_write(card, card_len, strip_len, lost, stripe, stripe_len, out, out_len) }
    },
    safe: |input, lent| {
        let (card, stripe) = (lent.slice(&input.card), lent.slice(&input.stripe));
        let out = lent.output_slice(input.out_len);
        code(bridgecrumb::write_record(card, input.strip_len, input.set, stripe, out))
    },
    reference: |input| {
        let record = records::write(&input.card, input.strip_len, input.set, &input.stripe, input.out_len);
        Told::of(record.map(|record| (record.len(), vec![record])))
    },
};

/// The length that the record of a card should have.
fn record_len(card: &Card, strip_len: usize, lost: u32) -> usize {
    let n = disks_of(card);
    let there = (0..n).filter(|disk| lost >> disk & 1 == 0).count();
    10 + 10 * (n + 1) + card.len().min(34) + there * strip_len
}

/// Every loss in codes of up to 5 disks, with outputs around the record's length; of up to 3 disks, outputs of every length.
fn every_write(n: usize, choice: &mut Choice, then: &mut dyn FnMut(&Input)) {
    for card in every_card(n.min(5)).into_iter().filter(|_| n <= 5) {
        for strip_len in 1..=3 {
            for set in 0..1 << n {
                let stripe = choice.bytes(n * strip_len);
                let right = record_len(&card, strip_len, set);
                let least = if n <= 3 { 0 } else { right - 2 };
                let mut input = Input { card: card.clone(), strip_len, set, stripe, ..Input::default() };
                for out_len in least..right + 3 {
                    input.out_len = out_len;
                    then(&input);
                }
            }
        }
    }
}

pub const READ: Row = Row {
    name: "record_read",
    editions: &[Edition::First],
    any: any_file,
    every: |n, choice, then| every_file(n, choice, &mut |input| then(input)),
    good: |_| good_file(),
    faults: |_| file_faults(),
    heavy: |_| false,
    engine: |input, lent| {
        let (file, file_len) = lent.read_closed(&input.file, input.closed);
        let (fields, _) = lent.output(4);
        let (columns, _) = lent.output(16);
        // SAFETY: each buffer is as long as is said; where strips stand on closed pages, it is to be seen that they are left alone
        unsafe { ffi::bridgecrumb_record_read(file, file_len, fields, columns) }
    },
    safe: |input, lent| {
        let file = lent.slice(&input.file);
        let (fields, columns) = (lent.output_slice(4), lent.output_slice(16));
        code(bridgecrumb::read_record(file).map(|record| {
            fields.copy_from_slice(&[record.k, record.m, record.strip_len, record.lost as usize]);
            columns.copy_from_slice(&record.columns);
            0
        }))
    },
    reference: |input| {
        Told::of(records::read(&input.file).map(|mut read| {
            read.columns.resize(16, 0);
            let fields = [read.k, read.m, read.strip_len, read.lost as usize];
            (0, vec![bytes_of(&fields, usize::to_le_bytes), bytes_of(&read.columns, u16::to_le_bytes)])
        }))
    },
};

pub const BODY: Row = Row {
    name: "record_body",
    editions: &[Edition::First],
    any: |choice| {
        let input = any_file(choice);
        // where the contents say how many disks there are, one of them
        let entries = input.file.get(8).map_or(8, |&entries| usize::from(entries).clamp(2, 33));
        Input { disk: any_disk(choice, entries - 1), ..input }
    },
    every: |n, choice, then| {
        let disks: Vec<usize> = (0..n + 2).chain([31, 32, 256, 1 << 32, 1 << 32 | 1, usize::MAX]).collect();
        let mut next = disks.iter().cycle();
        every_file(n, choice, &mut |input| {
            // four in turn, which come round with the next files
            for disk in next.by_ref().take(4) {
                input.disk = *disk;
                then(input);
            }
        })
    },
    good: |_| good_file(),
    faults: |_| {
        let mut faults = file_faults();
        faults.push(disk_faults());
        faults.push(ways(16, vec![2, 5], |input, &disk| input.disk = disk));
        faults
    },
    heavy: |_| false,
    engine: |input, lent| {
        let (file, file_len) = lent.read_closed(&input.file, input.closed);
        let (place, _) = lent.output(2);
        // SAFETY: as for the reader
        unsafe { ffi::bridgecrumb_record_body(file, file_len, input.disk, place) }
    },
    safe: |input, lent| {
        let file = lent.slice(&input.file);
        let place = lent.output_slice(2);
        code(bridgecrumb::body(file, input.disk).map(|part| {
            place.copy_from_slice(&[(part.as_ptr() as usize).wrapping_sub(file.as_ptr() as usize), part.len()]);
            0
        }))
    },
    reference: |input| {
        let body = records::body(&input.file, input.disk);
        Told::of(body.map(|body| (0, vec![bytes_of(&[body.start, body.len()], usize::to_le_bytes)])))
    },
};

/// Every damage of the small records, and of no disks, files with other numbers of entries and with cards of edition 2.
fn every_file(n: usize, choice: &mut Choice, then: &mut dyn FnMut(&mut Input)) {
    let mut input = Input::default();
    let mut then = |file: &[u8]| {
        input.file.clear();
        input.file.extend_from_slice(file);
        then(&mut input);
    };
    for record in small_records(n, choice) {
        every_damage(&record, choice, &mut then);
    }
    if n == 0 {
        other_counts(choice, &mut then);
        other_editions(choice, &mut then);
    }
}

/// C1, strips of 3 bytes, disks 2 and 5 lost: the card stands at 90, the strips at 98, the end is 113.
fn good_file() -> Input {
    let stripe = good_stripe(Edition::First);
    let file = records::write(&stripe.card, 3, 0x24, &stripe.stripe, usize::MAX).expect("a record of C1");
    Input { file, ..Input::default() }
}

/// Values of so many bytes at a place.
fn fields(answer: u64, values: &[(usize, usize, u64)]) -> Vec<Fault> {
    ways(answer, values.to_vec(), |input, &(at, width, value)| put(&mut input.file, at, width, value))
}

fn alone(faults: Vec<Fault>) -> Vec<Fault> {
    faults.into_iter().map(|fault| Fault { alone: true, ..fault }).collect()
}

/// The reader's refusals in document 01's order, on `good_file`; of 14 there are four stages.
fn file_faults() -> Vec<Vec<Fault>> {
    let mark = fields(13, &[(0, 1, 0x47), (0, 1, 0x66), (1, 1, 0x59), (2, 1, 0x42), (3, 1, 0x30), (3, 1, 0x32)]);
    let strip_len = fields(6, &[(4, 4, 0), (4, 4, 65537), (4, 4, 65539), (4, 4, 0x8000_0003), (4, 4, 0xffff_ffff)]);
    // out of range, or the entries run past the end
    let count = fields(14, &[0, 1, 2, 34, 256 + 8, 65535, 33, 11].map(|entries| (8, 2, entries)));
    let mut card_entry = fields(14, &[10, 9, 7].map(|entries| (8, 2, entries)));
    card_entry.extend(fields(14, &[(10, 1, 1), (10, 1, 2), (10, 1, 3), (10, 1, 255), (11, 1, 1), (11, 1, 128)]));
    card_entry.extend(fields(14, &[0, 89, 91, 256 + 90, 0x0100_005a, 0xffff_ffff].map(|offset| (12, 4, offset))));
    // right in its lowest bytes, too large, and with the offset 0 or 8 in 32 bits
    let past = [65536 + 8, 0x8000_0000, 0xffff_ffff, 0xffff_ffff - 89, 0xffff_ffff - 81];
    card_entry.extend(fields(14, &past.map(|length| (16, 4, length))));
    card_entry.extend(alone(fields(14, &[(16, 4, 24)]))); // one byte past the end
    let card_1 = fields(1, &[(16, 4, 0), (16, 4, 1)]);
    let card_2 = fields(2, &[(90, 1, 0), (90, 1, 17), (90, 1, 255)]);
    let card_3 = fields(3, &[(91, 1, 0), (91, 1, 17), (91, 1, 255)]);
    let mut card_4 = fields(4, &[(91, 1, 2), (91, 1, 4), (16, 4, 2), (16, 4, 3), (16, 4, 7), (16, 4, 9)]);
    card_4.extend(alone(fields(4, &[(16, 4, 23)]))); // up to the end
                                                     // columns, and k smaller than they need
    let mut column_0 = fields(5, &[(92, 2, 0), (92, 2, 0x8000), (90, 1, 2)]);
    column_0.extend(alone(fields(5, &[(92, 2, 16)]))); // 2^k
    let column_1 = fields(5 + 256, &[(94, 2, 0), (94, 2, 0x010b), (90, 1, 3)]);
    let column_2 = fields(5 + 512, &[(96, 2, 0), (96, 2, 0xffff)]);
    let disks = fields(14, &[(90, 1, 5)]); // E is not n + 1
    let mut entries = alone(fields(14, &[(4, 4, 65536), (4, 4, 4)]));
    let changes: Vec<(usize, u8)> = (20..90).flat_map(|at| [1, 2, 3, 0x80, 0xff].map(|change| (at, change))).collect();
    entries.extend(ways(14, changes, |input, &(at, change)| input.file[at] ^= change));
    let end = ways(15, vec![1, -1, 3, -3, 256], |input, &more| {
        let len = input.file.len() as isize + more;
        input.file.resize(len as usize, 9)
    });
    let card = [card_1, card_2, card_3, card_4, column_0, column_1, column_2];
    [mark, strip_len, count, card_entry].into_iter().chain(card).chain([disks, entries, end]).collect()
}
