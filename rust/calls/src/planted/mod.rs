//! Faults planted between the drivers and the engine, to see that they are found: BRIDGECRUMB_FAULT names one of them by its number, from 1.
//! Without it nothing stands between them.

mod bent;

use crate::input::Input;
use crate::lent::Place;
use crate::reference::{cards as bytes, wear as wears, Card, Edition};
use crate::rows::cards::large;
use crate::rows::{alike, cards, converters, records, sets, stepped, strips, trays, turns, updates, wear};
use crate::table::{Engine, Row, TABLE};
use bent::*;
use std::env;

/// Whose fault it is.
enum Planted {
    /// The archive's call of this name.
    Archive(&'static str, Engine),
    /// The safe function.
    Safe(&'static str, Engine),
}

use Planted::{Archive, Safe};

/// The table of calls, with the fault that is named.
pub fn table() -> [Row; TABLE.len()] {
    let mut table = TABLE;
    if let Ok(number) = env::var("BRIDGECRUMB_FAULT") {
        let number: usize = number.parse().expect("BRIDGECRUMB_FAULT is a number");
        let fault = PLANTED.get(number - 1).expect("a fault of this number");
        let (Archive(name, _) | Safe(name, _)) = fault;
        let row = table.iter_mut().find(|row| row.name == *name).expect("a call of this name");
        match fault {
            Archive(_, engine) => row.engine = *engine,
            Safe(_, engine) => row.safe = *engine,
        }
    }
    table
}

/// Each under a line that says what is wrong.
#[rustfmt::skip]
const PLANTED: [Planted; 63] = [
    // the last wrong column instead of the first
    Archive("card_read", |input, lent| last_wrong_column(input, (cards::READ.engine)(input, lent))),
    // a refusal writes k
    Archive("card_read", |input, lent| after(cards::READ.engine, input, lent, 4, |lent, _| lent.written(0)[0] = 9)),
    // 7 before 5
    Archive("card_write", |input, lent| instead(cards::WRITE.engine, input, lent, 5, other_buffer(input), 7)),
    // parity sets of one size by their lowest parity disk, then the next
    Archive("card_stepped", |input, lent| after(stepped::STEPPED.engine, input, lent, 0, |lent, _| lowest_first(input, lent.written(0)))),
    // alike by the vectors, as document 01 had it
    Archive("alike", |input, lent| instead(alike::ALIKE.engine, input, lent, 0, equal_vectors(input), 256)),
    // alike where the sets of columns are equal, however often each stands
    Archive("alike", |input, lent| instead(alike::ALIKE.engine, input, lent, 0, equal_sets(input), 256)),
    // the last byte of some lengths is left out
    Archive("encode", |input, lent| after(strips::ENCODE.engine, input, lent, 0, |lent, _| if input.strip_len % 16 == 15 {
        *lent.written(0).last_mut().unwrap() = *input.stripe.last().unwrap();
    })),
    // a byte is read behind the stripe
    Archive("encode", |input, lent| after(strips::ENCODE.engine, input, lent, 0, |lent, _| touch_behind(lent.written(0)))),
    // the last data disk is multiplied by 0
    Archive("encode", |input, lent| after(strips::ENCODE.engine, input, lent, 0, |lent, _| without_last_disk(input, lent.written(0)))),
    // the whole set where it is fatal
    Archive("verdict", |input, lent| match (sets::VERDICT.engine)(input, lent) {
        fatal if fatal % 256 == 0 && fatal != 0 => 256 * u64::from(input.set),
        answer => answer,
    }),
    // nothing is undetermined in large codes, for sets of one size
    Archive("verdict", |input, lent| {
        let one_size = input.card.code_bytes().get(1).copied().map(u32::from) == Some(input.set.count_ones());
        instead(sets::VERDICT.engine, input, lent, 0, large(&input.card) && one_size, 0)
    }),
    // an entry is written behind the list
    Archive("list", |input, lent| listed(sets::LIST.engine, input, lent, |out, count| if count < out.len() { out[count] = 0 })),
    // the vector's last number is missing
    Archive("list", |input, lent| after(sets::LIST.engine, input, lent, 0, |lent, _| {
        let m = usize::from(input.card.code_bytes()[1]);
        lent.written(1)[8 * m..8 * m + 8].fill(0);
    })),
    // a refusal writes the vector
    Archive("list", |input, lent| after(sets::LIST.engine, input, lent, 10, |lent, _| lent.written(1)[0] = 0)),
    // entries of one size by set number
    Archive("list", |input, lent| listed(sets::LIST.engine, input, lent, |out, count| out[..count].sort_by_key(|set| (set.count_ones(), *set)))),
    // an entry that is not minimal in a larger code
    Archive("list", |input, lent| listed(sets::LIST.engine, input, lent, |out, count| if count > 20 { out[count - 1] |= 1 })),
    // the last entry is none, in codes of more than 8 disks and 20 entries
    Archive("list", |input, lent| one_less(sets::LIST.engine, input, lent, 20, 8)),
    // disk n is accepted
    Archive("equations", |input, lent| instead(sets::EQUATIONS.engine, input, lent, 9, input.disk == disks(input), 0)),
    // the last entry is not counted
    Archive("equations", |input, lent| one_less(sets::EQUATIONS.engine, input, lent, 3, 0)),
    // the last entry is none, in codes of more than 8 disks and 10 entries
    Archive("equations", |input, lent| one_less(sets::EQUATIONS.engine, input, lent, 10, 8)),
    // document 01's order: equations of one size by set number
    Archive("equations", |input, lent| listed(sets::EQUATIONS.engine, input, lent, |out, count| out[..count].sort_by_key(|set| (set.count_ones(), *set)))),
    // entries with fewer parity disks before smaller ones
    Archive("equations", |input, lent| listed(sets::EQUATIONS.engine, input, lent, |out, count| {
        let parities = |set: &u32| (set >> input.card.code_bytes()[0]).count_ones();
        out[..count].sort_by_key(parities);
    })),
    // a refusal writes
    Archive("rebuild", |input, lent| after(strips::REBUILD.engine, input, lent, 12, |lent, _| lent.written(0)[0] ^= (input.set & 1) as u8)),
    // the last lost strip is not restored
    Archive("rebuild", |input, lent| after(strips::REBUILD.engine, input, lent, 0, |lent, restored| if restored == 3 {
        lent.written(0)[(31 - input.set.leading_zeros() as usize) * input.strip_len] ^= 1;
    })),
    // 7 before 8
    Archive("rebuild", |input, lent| {
        let other_len = Some(input.stripe.len()) != input.strip_len.checked_mul(disks(input));
        instead(strips::REBUILD.engine, input, lent, 8, other_len, 7)
    }),
    // accepted in a large code, and no content agrees
    Archive("rebuild", |input, lent| {
        instead(strips::REBUILD.engine, input, lent, 12, large(&input.card), 256 * u64::from(input.set.count_ones()))
    }),
    // what is not restored becomes 0
    Archive("partial_rebuild", |input, lent| after(strips::PARTIAL_REBUILD.engine, input, lent, 0, |lent, undetermined| {
        let strips = lent.written(0).chunks_mut(input.strip_len).enumerate();
        strips.filter(|(disk, _)| undetermined >> disk & 1 == 1).for_each(|(_, strip)| strip.fill(0));
    })),
    // of a fatal loss the survivors are not looked at
    Archive("partial_rebuild", |input, lent| {
        let undetermined = bridgecrumb::undetermined(input.card.edition.named(), &input.card, input.set).unwrap_or(0);
        instead(strips::PARTIAL_REBUILD.engine, input, lent, 12, undetermined != 0, 256 * u64::from(undetermined))
    }),
    // turned the other way
    Archive("turn", |input, lent| (turns::TURN.engine)(&Input { r: other_way(input), ..input.clone() }, lent)),
    // disk and r are added in 32 bits
    Archive("turn", |input, lent| after(turns::TURN.engine, input, lent, 0, |lent, _| added_in_32_bits(input, lent.written(0)))),
    // r is cut to 8 bits
    Archive("turn_back", |input, lent| (turns::TURN_BACK.engine)(&Input { r: input.r & 255, ..input.clone() }, lent)),
    // the second buffer's length is not looked at where it is longer
    Archive("turn_back", |input, lent| instead(turns::TURN_BACK.engine, input, lent, 7, input.stripe.len() > input.turned.len() && Some(input.turned.len()) == input.strip_len.checked_mul(disks(input)), 0)),
    // lost slots are taken for lost disks
    Archive("rebuild_turned", |input, lent| (turns::REBUILD_TURNED.engine)(&slots_as_disks(input), lent)),
    // 7 before 8
    Archive("rebuild_turned", |input, lent| {
        let other_len = Some(input.turned.len()) != input.strip_len.checked_mul(disks(input));
        instead(turns::REBUILD_TURNED.engine, input, lent, 8, other_len, 7)
    }),
    // wears behind the last disk's are not 0
    Archive("card_read", |input, lent| after(cards::READ.engine, input, lent, 0, |lent, _| lent.written(2)[disks(input)..].fill(1))),
    // any first byte is taken for edition 2
    Archive("card_read", |input, lent| match (cards::READ.engine)(input, lent) {
        22 => {
            lent.begin(Place::End);
            (cards::READ.engine)(&Input { card: Card::second([&[2], &input.card[1..]].concat()), ..input.clone() }, lent)
        }
        answer => answer,
    }),
    // 23 before 5
    Archive("card_read", |input, lent| instead(cards::READ.engine, input, lent, 5, input.card.edition == Edition::Second && input.card.last() == Some(&0), 23)),
    // 7 before 23
    Archive("card_write", |input, lent| instead(cards::WRITE.engine, input, lent, 23, other_buffer(input), 7)),
    // wears for edition 1 are dropped
    Archive("card_write", |input, lent| {
        let dropped = Input { wears: Vec::new(), ..input.clone() };
        (cards::WRITE.engine)(if input.card.edition == Edition::First && input.columns.len() == input.m { &dropped } else { input }, lent)
    }),
    // the last wear is 2
    Archive("card_up", |input, lent| after(converters::UP.engine, input, lent, 0, |lent, _| *lent.written(0).last_mut().unwrap() = 2)),
    // 24 before 7
    Archive("card_down", |input, lent| {
        let lossy = bytes::down(&input.card, input.card.code_bytes().len()) == Err((24, None));
        instead(converters::DOWN.engine, input, lent, 7, lossy, 24)
    }),
    // the last disk's wear is not looked at
    Archive("card_down", |input, lent| match (converters::DOWN.engine)(input, lent) {
        24 => {
            lent.begin(Place::End);
            let mut other = input.clone();
            *other.card.last_mut().unwrap() = 1;
            (converters::DOWN.engine)(&other, lent)
        }
        answer => answer,
    }),
    // the last of the equations that total least
    Archive("least_wear", |input, lent| least_by(wear::LEAST_WEAR.engine, input, lent, wears::total)),
    // the wear of the next disk
    Archive("least_wear", |input, lent| least_by(wear::LEAST_WEAR.engine, input, lent, neighbours_wear)),
    // 11 where the loss is fatal, though an equation survives
    Archive("least_wear", |input, lent| {
        let fatal = bridgecrumb::undetermined(input.card.edition.named(), &input.card, input.set).map_or(false, |set| set != 0);
        instead(wear::LEAST_WEAR.engine, input, lent, 0, fatal, 11)
    }),
    // 9 before 8
    Archive("least_wear", |input, lent| instead(wear::LEAST_WEAR.engine, input, lent, 8, input.disk >= disks(input), 9)),
    // a byte is written behind the record
    Archive("record_write", |input, lent| after(records::WRITE.engine, input, lent, 0, |lent, len| if len < input.out_len {
        lent.written(0)[len] = 0;
    })),
    // disk 31's lost strip has an offset
    Archive("record_write", |input, lent| after(records::WRITE.engine, input, lent, 0, |lent, _| if input.set >> 31 == 1 {
        lent.written(0)[10 + 10 * 32 + 2] = 1;
    })),
    // E against n before the columns
    Archive("record_read", |input, lent| instead(records::READ.engine, input, lent, 5, other_count(&input.file), 14)),
    // a lost strip's offset is not looked at
    Archive("record_read", |input, lent| match (records::READ.engine)(input, lent) {
        14 => {
            lent.begin(Place::End);
            (records::READ.engine)(&without_offsets(input), lent)
        }
        answer => answer,
    }),
    // a byte is read behind the file
    Archive("record_read", |input, lent| after(records::READ.engine, input, lent, 15, |lent, _| touch_behind(lent.read_again(0)))),
    // the disk is cut to 32 bits
    Archive("record_body", |input, lent| {
        (records::BODY.engine)(&Input { disk: input.disk & 0xffff_ffff, ..input.clone() }, lent)
    }),
    // the last strip is one byte too short
    Archive("record_body", |input, lent| after(records::BODY.engine, input, lent, 0, |lent, _| {
        let place = lent.written(0);
        if input.disk == 6 && place[0].wrapping_add(place[8]) == input.file.len() as u8 {
            place[8] = place[8].wrapping_sub(1);
        }
    })),
    // what is left of the second stripe's set is not told
    Archive("quick_repair", |input, lent| after(trays::QUICK_REPAIR.engine, input, lent, 0, |lent, _| lent.written(1)[4..8].fill(0))),
    // only the first naming parity is updated
    Archive("update", |input, lent| after(updates::UPDATE.engine, input, lent, 0, |lent, _| first_parity_alone(input, lent.written(0)))),
    // another number
    Safe("encode", |input, lent| instead(strips::ENCODE.safe, input, lent, 6, true, 7)),
    // a refusal writes
    Safe("rebuild", |input, lent| after(strips::REBUILD.safe, input, lent, 11, |lent, _| lent.written(0)[0] ^= 1)),
    // a byte more or less than the strip has
    Safe("record_body", |input, lent| after(records::BODY.safe, input, lent, 0, |lent, _| lent.written(0)[8] ^= 1)),
    // the last entry is missing
    Safe("list", |input, lent| one_less(sets::LIST.safe, input, lent, 0, 0)),
    // the lost set is cut to 16 bits
    Safe("record_read", |input, lent| after(records::READ.safe, input, lent, 0, |lent, _| lent.written(0)[26..28].fill(0))),
    // turned once more and not back
    Safe("turn_back", |input, lent| (turns::TURN_BACK.safe)(&Input { r: other_way(input), ..input.clone() }, lent)),
    // edition 2 is named as edition 1
    Safe("least_wear", |input, lent| {
        (wear::LEAST_WEAR.safe)(&Input { card: Card::first(input.card.code_bytes().to_vec()), ..input.clone() }, lent)
    }),
    // the other card's refusal before the first's
    Safe("alike", |input, lent| {
        (alike::ALIKE.safe)(&Input { card: input.other.clone(), other: input.card.clone(), ..Input::default() }, lent)
    }),
];
