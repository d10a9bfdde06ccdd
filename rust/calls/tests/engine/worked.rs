//! Document 01's worked codes, C1 to C12, verdicts, equations in order, partial rebuilds, quick repairs and updates of document 02 and a record
//! by hand: of the reference, and of the engine beside it.

use bridgecrumb::{Edition::First, Error};
use calls::cards::{card_of, card_of_size};
use calls::choice::Choice;
use calls::input::{bytes_of, Input, Told};
use calls::lent::{Lent, Place};
use calls::reference::trays;
use calls::table::TABLE;

/// The call's answer and what it writes.
pub fn worked(name: &str, input: Input, answer: u64, written: Vec<Vec<u8>>) {
    let row = TABLE.iter().find(|row| row.name == name).expect("a call of this name");
    assert_eq!((row.reference)(&input), Told { answer, written }, "{name}, {input:?}");
    let mut lent = Lent::new();
    (0..3).for_each(|turn| assert_eq!(row.try_input(&input, &mut lent, Place::of_turn(turn)), answer));
}

/// The list and the vector of a code. Its card is alike to itself, and not to C1's with its last column changed.
fn listed(k: usize, columns: &[u16], list: &[u32], vector: &[usize]) {
    let card = card_of(k, columns.len(), columns);
    let mut places = [0; 17];
    places[..vector.len()].copy_from_slice(vector);
    let written = vec![bytes_of(list, u32::to_le_bytes), bytes_of(&places, usize::to_le_bytes)];
    worked(
        "list",
        Input { card: card.clone(), out_len: list.len(), ..Input::default() },
        256 * list.len() as u64,
        written,
    );
    let (same, other) = (card.clone(), card_of(4, 3, &[7, 11, 12]));
    worked("alike", Input { card: card.clone(), other: same, ..Input::default() }, 256, Vec::new());
    worked("alike", Input { card, other, ..Input::default() }, 0, Vec::new());
}

#[test]
fn c1_to_c6_lists() {
    listed(4, &[7, 11, 13], &[50, 67, 84, 37, 104, 25, 14, 113, 102, 23, 90, 43, 60, 77], &[0, 0, 7, 7]);
    listed(2, &[1, 2], &[5, 10], &[0, 2, 0]);
    listed(1, &[1, 1], &[7], &[0, 0, 1]);
    listed(3, &[7], &[9, 10, 3, 12, 5, 6], &[0, 6]);
    listed(2, &[1], &[2, 5], &[1, 1]);
}

/// Document 02, request [5]: the disks that stay undetermined. With C1's data lost, its parities still tell disk 0; with C6's last two disks
/// lost, disk 0 tells the parity, and nothing tells disk 1, which stands in no column.
#[test]
fn verdicts() {
    let verdict = |k, columns: &[u16], set, undetermined: u64| {
        let card = card_of(k, columns.len(), columns);
        worked("verdict", Input { card, set, ..Input::default() }, 256 * undetermined, Vec::new());
    };
    verdict(4, &[7, 11, 13], 127, 127);
    verdict(4, &[7, 11, 13], 15, 14);
    verdict(4, &[7, 11, 13], 14, 14);
    verdict(4, &[7, 11, 13], 7, 0);
    verdict(2, &[1, 2], 15, 15);
    verdict(2, &[1], 6, 2);
}

/// C2, and what tells the order of document 02, request [6]: of C1's disk 2, 73 has one parity disk and 56 two; of two parity disks that hold
/// the same, the other one alone comes before the two data disks.
#[test]
fn equations_in_order() {
    let told = |k, columns: &[u16], disk, list: &[u32]| {
        let card = card_of(k, columns.len(), columns);
        let answer = 256 * list.len() as u64;
        worked(
            "equations",
            Input { card, disk, out_len: 6, ..Input::default() },
            answer,
            vec![bytes_of(list, u32::to_le_bytes)],
        );
    };
    told(4, &[7, 11, 13], 0, &[22, 42, 76, 112]);
    told(4, &[7, 11, 13], 2, &[19, 73, 56, 98]);
    told(2, &[3, 3], 2, &[8, 3]);
}

#[test]
fn c7_to_c10_stripes() {
    let input = |set, stripe: [u8; 7]| {
        let (card, stripe) = (card_of(4, 3, &[7, 11, 13]), stripe.to_vec());
        Input { card, strip_len: 1, set, stripe, ..Input::default() }
    };
    let encoded = vec![vec![0x11, 0x22, 0x44, 0x88, 0x77, 0xBB, 0xDD]];
    worked("encode", input(0, [0x11, 0x22, 0x44, 0x88, 0, 0, 0]), 0, encoded.clone());
    worked("rebuild", input(7, [0, 0, 0, 0x88, 0x77, 0xBB, 0xDD]), 256 * 3, encoded);
    worked("rebuild", input(1, [0, 0x22, 0x44, 0x88, 0x77, 0xBB, 0xDC]), 12, Vec::new());
    worked("rebuild", input(14, [0x11, 0, 0, 0, 0x77, 0xBB, 0xDD]), 11, Vec::new());
}

/// Document 02, request [5], on C7's stripe and one of C6: what is not determined keeps its bytes, survivors of no content are 12 in fatal
/// losses too, and where all is determined it is the rebuilder's stripe.
#[test]
fn c7_partial_rebuilds() {
    let input = |k, columns: &[u16], set, stripe: &[u8]| {
        let (card, stripe) = (card_of(k, columns.len(), columns), stripe.to_vec());
        Input { card, strip_len: 1, set, stripe, ..Input::default() }
    };
    let c7 = |set, stripe: [u8; 7]| input(4, &[7, 11, 13], set, &stripe);
    let call = "partial_rebuild";
    worked(call, c7(15, [0, 1, 2, 3, 0x77, 0xBB, 0xDD]), 256 * 14, vec![vec![0x11, 1, 2, 3, 0x77, 0xBB, 0xDD]]);
    worked(call, c7(14, [0x11, 1, 2, 3, 0x77, 0xBB, 0xDD]), 256 * 14, vec![vec![0x11, 1, 2, 3, 0x77, 0xBB, 0xDD]]);
    worked(call, c7(14, [0x11, 1, 2, 3, 0x77, 0xBB, 0xDC]), 12, Vec::new());
    worked(call, c7(127, [9, 8, 7, 6, 5, 4, 3]), 256 * 127, vec![vec![9, 8, 7, 6, 5, 4, 3]]);
    let whole = vec![0x11, 0x22, 0x44, 0x88, 0x77, 0xBB, 0xDD];
    worked(call, c7(7, [0, 0, 0, 0x88, 0x77, 0xBB, 0xDD]), 0, vec![whole.clone()]);
    worked(call, c7(0, [0x11, 0x22, 0x44, 0x88, 0x77, 0xBB, 0xDD]), 0, vec![whole]);
    worked(call, c7(1, [0, 0x22, 0x44, 0x88, 0x77, 0xBB, 0xDC]), 12, Vec::new());
    worked(call, input(2, &[1], 6, &[0x5A, 1, 2]), 256 * 2, vec![vec![0x5A, 1, 0x5A]]);
    worked(call, input(2, &[1, 1, 1], 3, &[0, 1, 7, 7, 7]), 256 * 2, vec![vec![7, 1, 7, 7, 7]]);
    // of disk 0's three mirrors one differs: disk 0 is not written, though any of them would tell it
    worked(call, input(2, &[1, 1, 1], 3, &[0, 1, 7, 8, 7]), 12, Vec::new());
}

#[test]
fn c11_card() {
    let mut columns = vec![3, 0];
    columns.resize(32, 0);
    let card = |column| Input { card: card_of(2, 1, &[column]), ..Input::default() };
    let mut wears = vec![1, 1, 1];
    wears.resize(32, 0);
    worked("card_read", card(3), 0, vec![bytes_of(&[2, 1], usize::to_le_bytes), columns, wears]);
    worked("card_read", card(4), 5, Vec::new());
}

#[test]
fn c12_short_slice() {
    let slice = |out_len| Input { card: card_of(2, 2, &[1, 2]), out_len, ..Input::default() };
    worked("list", slice(1), 10 + 256 * 2, Vec::new());
}

/// C6's card, strips of 2 bytes, disk 1 lost.
#[test]
fn a_record_by_hand() {
    let record = [
        &b"FXC1\x02\0\0\0\x04\0"[..],
        b"\0\0\x32\0\0\0\x04\0\0\0",
        b"\x01\0\x36\0\0\0\x02\0\0\0",
        b"\x02\x01\0\0\0\0\0\0\0\0",
        b"\x01\x02\x38\0\0\0\x02\0\0\0",
        b"\x02\x01\x01\0",
        b"\xaa\xbb\xee\xff",
    ]
    .concat();
    let stripe = vec![0xaa, 0xbb, 0xcc, 0xdd, 0xee, 0xff];
    let card = card_of(2, 1, &[1]);
    let input = Input { card, strip_len: 2, set: 2, stripe, out_len: 60, ..Input::default() };
    worked("record_write", input, 256 * 58, vec![record.clone()]);
    let body = |disk| Input { file: record.clone(), disk, ..Input::default() };
    worked("record_body", body(0), 0, vec![bytes_of(&[54, 2], usize::to_le_bytes)]);
    worked("record_body", body(1), 16, Vec::new());
    worked("record_body", body(2), 0, vec![bytes_of(&[56, 2], usize::to_le_bytes)]);
    worked("record_body", body(3), 9, Vec::new());
}

/// Document 02, request [1], on C7's stripe: set 3 goes disk 0 by check 2 and disk 1 by check 0, set 7 sticks at once, and of set 49 two steps leave
/// disk 5. The budget is the tray's.
#[test]
fn quick_repairs() {
    let whole = [0x11, 0x22, 0x44, 0x88, 0x77, 0xBB, 0xDD];
    let repair = |sets: &[u32], budget, steps: u64, left: &[u32], tray: &[u8]| {
        let mut before: Vec<u8> = whole.repeat(sets.len());
        for (at, byte) in before.iter_mut().enumerate() {
            *byte &= if sets[at / 7] >> (at % 7) & 1 == 1 { 0 } else { 0xff };
        }
        let mut places = [0; 8];
        places[..left.len()].copy_from_slice(left);
        let (card, sets) = (card_of(4, 3, &[7, 11, 13]), sets.to_vec());
        let input = Input { card, strip_len: 1, sets, budget, stripe: before, ..Input::default() };
        worked("quick_repair", input, 256 * steps, vec![tray.to_vec(), bytes_of(&places, u32::to_le_bytes)]);
    };
    repair(&[3], 100, 2, &[0], &whole);
    repair(&[3], 1, 1, &[2], &[0x11, 0, 0x44, 0x88, 0x77, 0xBB, 0xDD]);
    repair(&[3], 0, 0, &[3], &[0, 0, 0x44, 0x88, 0x77, 0xBB, 0xDD]);
    repair(&[7], 100, 0, &[7], &[0, 0, 0, 0x88, 0x77, 0xBB, 0xDD]);
    repair(&[49], 2, 2, &[32], &[0x11, 0x22, 0x44, 0x88, 0x77, 0, 0xDD]);
    let two = [&whole[..], &[0x11, 0, 0x44, 0x88, 0x77, 0xBB, 0xDD]].concat();
    repair(&[3, 3], 3, 3, &[0, 2], &two);
    // survivors of no content: check 0 gives 0x10, checks 1 and 2 would give 0x11
    let (card, stripe) = (card_of(4, 3, &[7, 11, 13]), vec![0, 0x22, 0x44, 0x88, 0x76, 0xBB, 0xDD]);
    let input = Input { card, strip_len: 1, sets: vec![1], budget: 9, stripe, ..Input::default() };
    worked("quick_repair", input, 256, vec![vec![0x10, 0x22, 0x44, 0x88, 0x76, 0xBB, 0xDD], vec![0; 32]]);
}

/// Document 02, request [4], on C7's stripe: disk 0 stands in all three columns, disk 3 in the last two. C6's disk 1 stands in none.
#[test]
fn c7_updates() {
    let update = |disk, stripe: [u8; 7], new: u8, value: u64, after: [u8; 7]| {
        let (card, stripe, new_strip) = (card_of(4, 3, &[7, 11, 13]), stripe.to_vec(), vec![new]);
        let input = Input { card, strip_len: 1, disk, stripe, new_strip, ..Input::default() };
        worked("update", input, 256 * value, vec![after.to_vec()]);
    };
    let whole = [0x11, 0x22, 0x44, 0x88, 0x77, 0xBB, 0xDD];
    update(0, whole, 0x10, 4, [0x10, 0x22, 0x44, 0x88, 0x76, 0xBA, 0xDC]);
    update(0, whole, 0x11, 4, whole);
    update(3, whole, 0x08, 3, [0x11, 0x22, 0x44, 0x08, 0x77, 0x3B, 0x5D]);
    // a stripe that was never encoded is updated alike
    update(0, [0x11, 0x22, 0x44, 0x88, 0, 0, 0xFF], 0x10, 4, [0x10, 0x22, 0x44, 0x88, 1, 1, 0xFE]);
    let in_none = |disk, new: &[u8]| {
        let (card, stripe, new_strip) = (card_of(2, 1, &[1]), vec![1, 2, 3, 4, 1, 2], new.to_vec());
        Input { card, strip_len: 2, disk, stripe, new_strip, ..Input::default() }
    };
    worked("update", in_none(1, &[5, 6]), 256, vec![vec![1, 2, 5, 6, 1, 2]]);
    worked("update", in_none(2, &[5, 6]), 18, Vec::new());
    worked("update", in_none(3, &[5, 6]), 9, Vec::new());
    worked("update", in_none(0, &[5]), 19, Vec::new());
}

/// Eight stripes of 32 disks with the longest strips, more than is lent otherwise.
#[test]
fn largest_tray() {
    let mut choice = Choice::named("largest tray");
    let card = card_of_size(&mut choice, 16, 16);
    let sets: Vec<u32> = (0..8).map(|stripe| 1 << stripe | 0x8000_0100).collect();
    let before = choice.bytes(8 * 32 * 65536);
    let (steps, left, tray) = trays::quick_repair(&card, 65536, &sets, usize::MAX, &before).expect("a tray");
    let mut now = before;
    let repair = bridgecrumb::quick_repair(First, &card, 65536, &sets, usize::MAX, &mut now).expect("a tray");
    assert_eq!((repair.steps, repair.left.to_vec()), (steps, left));
    assert!(steps > 0 && now == tray);
}

/// The names of the refusals have the documents' numbers, and two of them a value.
#[test]
fn numbers_and_values() {
    let all = [
        Error::CardShort,
        Error::DataCount,
        Error::ParityCount,
        Error::CardLength,
        Error::Column(7),
        Error::StripLength,
        Error::BufferLength,
        Error::OutsideSet,
        Error::NoDisk,
        Error::ListShort(8),
        Error::Fatal,
        Error::Inconsistent,
        Error::Mark,
        Error::Contents,
        Error::FileLength,
        Error::NoRoom,
        Error::StripeCount,
        Error::ParityDisk,
        Error::NewLength,
        Error::Distance,
        Error::Bounds,
        Error::FirstByte,
        Error::ZeroWear,
        Error::Lossy,
    ];
    for (error, number) in all.iter().zip(1..) {
        let value = match number {
            5 => Some(7),
            10 => Some(8),
            _ => None,
        };
        assert_eq!((error.number(), error.value()), (number, value));
        assert!(!error.to_string().is_empty());
    }
}
