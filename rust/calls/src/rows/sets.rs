//! The calls on sets of disks.

use super::cards::{large, many_parities, most_k};
use super::{c1_of, card_then, disk_faults, set_faults, ways};
use crate::cards::{any_card, any_disk, any_set, disks_of, every_card};
use crate::choice::Choice;
use crate::editions::EDITIONS;
use crate::input::{bytes_of, code, Input, Told};
use crate::reference::{self, Card};
use crate::table::Row;
use bridgecrumb::ffi;

pub const VERDICT: Row = Row {
    name: "verdict",
    editions: &EDITIONS,
    any: |choice| {
        let card = any_card(choice, most_k(choice));
        Input { set: any_set(choice, &card), card, ..Input::default() }
    },
    every: every_verdict,
    good: |edition| Input { card: c1_of(edition), set: 14, ..Input::default() },
    faults: |edition| card_then(edition, [set_faults()]),
    heavy: |input| large(&input.card),
    engine: |input, lent| {
        let (second, card, card_len) = lent.card(&input.card);
        // SAFETY: the card is as long as is said
        unsafe { ffi::bridgecrumb_verdict(second, card, card_len, input.set) }
    },
    safe: |input, lent| {
        let (edition, card) = lent.named_card(&input.card);
        code(bridgecrumb::undetermined(edition, card, input.set).map(|set| set as usize))
    },
    reference: |input| {
        let code = reference::code(&input.card);
        Told::of(code.and_then(|code| Ok((reference::verdict(&code, input.set)? as usize, Vec::new()))))
    },
};

/// Every set, and each disk that the code lacks with some.
fn every_verdict(n: usize, _: &mut Choice, then: &mut dyn FnMut(&Input)) {
    for card in every_card(n) {
        let mut input = Input { card, ..Input::default() };
        let outside = (n..32).flat_map(|disk| [0, 1, (1 << n) - 1].map(|set| set | 1 << disk));
        for set in (0..1 << n).chain(outside) {
            input.set = set;
            then(&input);
        }
    }
}

pub const LIST: Row = Row {
    name: "list",
    editions: &EDITIONS,
    any: |choice| {
        let card = any_card(choice, most_k(choice));
        let count = if large(&card) && !choice.rare { 3 } else { count_of(&card) };
        Input { out_len: choice.length(count), card, ..Input::default() }
    },
    every: |n, _, then| {
        for card in every_card(n) {
            for out_len in 0..count_of(&card) + 3 {
                then(&Input { card: card.clone(), out_len, ..Input::default() });
            }
        }
    },
    good: |edition| Input { card: c1_of(edition), out_len: 14, ..Input::default() },
    faults: |edition| card_then(edition, [ways(10 + 256 * 14, vec![0, 1, 13], |input, &len| input.out_len = len)]),
    heavy: |input| large(&input.card),
    engine: |input, lent| {
        let (second, card, card_len) = lent.card(&input.card);
        let (out, out_len) = lent.output(input.out_len);
        let (vector, _) = lent.output(17);
        // SAFETY: each buffer is as long as is said
        unsafe { ffi::bridgecrumb_list(second, card, card_len, out, out_len, vector) }
    },
    safe: |input, lent| {
        let (edition, card) = lent.named_card(&input.card);
        let (out, vector) = (lent.output_slice(input.out_len), lent.output_slice(17));
        code(bridgecrumb::minimal_erasures(edition, card, out).map(|listing| {
            vector.copy_from_slice(&listing.vector);
            listing.count
        }))
    },
    reference: |input| {
        Told::of(reference::code(&input.card).and_then(|code| {
            let list = reference::minimal_erasures(&code);
            reference::fits(&list, input.out_len)?;
            let vector = reference::vector(&code, &list);
            Ok((list.len(), vec![bytes_of(&list, u32::to_le_bytes), bytes_of(&vector, usize::to_le_bytes)]))
        }))
    },
};

/// How long the list is, 3 where the card is refused.
fn count_of(card: &Card) -> usize {
    reference::code(card).map_or(3, |code| reference::minimal_erasures(&code).len())
}

pub const EQUATIONS: Row = Row {
    name: "equations",
    editions: &EDITIONS,
    any: |choice| {
        let card = any_card(choice, most_k(choice));
        let disk = any_disk(choice, disks_of(&card));
        let count = if many_parities(&card) && !choice.rare { 3 } else { count_of_disk(&card, disk) };
        Input { out_len: choice.length(count), card, disk, ..Input::default() }
    },
    every: |n, _, then| {
        for card in every_card(n) {
            for disk in 0..n + 2 {
                for out_len in 0..count_of_disk(&card, disk) + 3 {
                    then(&Input { card: card.clone(), disk, out_len, ..Input::default() });
                }
            }
        }
    },
    good: |edition| Input { card: c1_of(edition), out_len: 4, ..Input::default() },
    faults: |edition| {
        let short = ways(10 + 256 * 4, vec![0, 3], |input, &len| input.out_len = len);
        card_then(edition, [disk_faults(), short])
    },
    heavy: |input| large(&input.card) || many_parities(&input.card),
    engine: |input, lent| {
        let (second, card, card_len) = lent.card(&input.card);
        let (out, out_len) = lent.output(input.out_len);
        // SAFETY: each buffer is as long as is said
        unsafe { ffi::bridgecrumb_equations(second, card, card_len, input.disk, out, out_len) }
    },
    safe: |input, lent| {
        let (edition, card) = lent.named_card(&input.card);
        code(bridgecrumb::equations(edition, card, input.disk, lent.output_slice(input.out_len)))
    },
    reference: |input| {
        Told::of(reference::code(&input.card).and_then(|code| {
            let list = reference::equations(&code, input.disk)?;
            reference::fits(&list, input.out_len)?;
            Ok((list.len(), vec![bytes_of(&list, u32::to_le_bytes)]))
        }))
    },
};

/// How many equations the disk has, 3 where the call is refused.
fn count_of_disk(card: &Card, disk: usize) -> usize {
    let list = reference::code(card).and_then(|code| reference::equations(&code, disk));
    list.map_or(3, |list| list.len())
}
