//! The call that rewrites one strip.

use super::strips::{good_stripe, long, DISKS};
use super::{card_then, disk_faults, strip_len_faults, stripe_faults, ways};
use crate::cards::{any_card, any_disk, card_naming, disks_of, every_card};
use crate::choice::Choice;
use crate::editions::{of_any_edition, EDITIONS};
use crate::input::{code, Input, Told};
use crate::reference::{outline, read_card, strips, updates, Card};
use crate::stripes::{any_strip_len, any_stripe};
use crate::table::Row;
use bridgecrumb::ffi;

pub const UPDATE: Row = Row {
    name: "update",
    editions: &EDITIONS,
    any: any_update,
    every: every_update,
    good: |edition| Input { disk: 2, new_strip: vec![0x5a, 0xa5, 0x3c], ..good_stripe(edition) },
    faults: |edition| {
        let parity = ways(18, vec![4, 5, 6], |input, &disk| input.disk = disk);
        let new_lens = ways(19, vec![2, 4, 0, 21, 256 + 3], |input, &len| input.new_strip.resize(len, 0x5a));
        card_then(edition, [strip_len_faults(), disk_faults(), parity, stripe_faults(), new_lens])
    },
    heavy: long,
    engine: |input, lent| {
        let (second, card, card_len) = lent.card(&input.card);
        let (stripe, stripe_len) = lent.write(&input.stripe);
        let (new, new_len) = lent.read(&input.new_strip);
        let (strip_len, disk) = (input.strip_len, input.disk);
        // SAFETY: each buffer is as long as is said
        unsafe { ffi::bridgecrumb_update(second, card, card_len, strip_len, stripe, stripe_len, disk, new, new_len) }
    },
    safe: |input, lent| {
        let ((edition, card), stripe) = (lent.named_card(&input.card), lent.slice_mut(&input.stripe));
        let new_strip = lent.slice(&input.new_strip);
        code(bridgecrumb::update(edition, card, input.strip_len, stripe, input.disk, new_strip))
    },
    reference: |input| {
        let after = updates::update(&input.card, input.strip_len, &input.stripe, input.disk, &input.new_strip);
        Told::of(after.map(|(value, stripe)| (value, vec![stripe])))
    },
};

/// A card and one of its data disks, which stands in so many columns as is chosen, none too.
fn any_naming(choice: &mut Choice) -> (Card, usize) {
    let (k, m) = (2 + choice.below(15), 1 + choice.below(16));
    let (disk, size) = (choice.below(k), choice.below(m + 1));
    let naming = choice.set(m, size);
    let card = card_naming(choice, k, m, disk, naming);
    (of_any_edition(choice, card), disk)
}

/// Mostly a data disk, and a stripe that is encoded, spoiled or any bytes.
fn any_update(choice: &mut Choice) -> Input {
    let (card, disk) = match choice.below(4) {
        0 => any_naming(choice),
        kind => {
            let card = any_card(choice, 16);
            let k = read_card(&card).map_or(16, |said| said.k);
            let disk = if kind == 1 { any_disk(choice, disks_of(&card)) } else { choice.below(k) };
            (card, disk)
        }
    };
    let strip_len = any_strip_len(choice);
    let stripe = any_stripe(choice, &card, strip_len, 0);
    let new_len = match choice.strip_len {
        Some(strip_len) => strip_len,
        None if strip_len > 65536 => choice.pick(&[0, 1, 64]),
        None => choice.length(strip_len),
    };
    Input { new_strip: choice.bytes(new_len), card, strip_len, disk, stripe, ..Input::default() }
}

/// Each disk, and two that the code lacks, of an encoded stripe and of any bytes: new strips of any bytes and of other lengths, the
/// old strip, and the old one with each bit turned; stripes of other lengths.
fn every_update(n: usize, choice: &mut Choice, then: &mut dyn FnMut(&Input)) {
    for card in every_card(n.min(DISKS)).into_iter().filter(|_| n <= DISKS) {
        let code = outline(&card).expect("a code");
        for strip_len in 1..=2 {
            let any = choice.bytes(n * strip_len);
            let mut input = Input { card: card.clone(), strip_len, ..Input::default() };
            for stripe in [strips::encoded(&code, strip_len, &any), any] {
                input.stripe = stripe;
                for disk in 0..n + 2 {
                    input.disk = disk;
                    every_new_strip(choice, &mut input, then);
                }
            }
            input.disk = 0;
            for len in 0..3 * n {
                input.stripe = choice.bytes(len);
                input.new_strip = choice.bytes(strip_len);
                then(&input);
            }
        }
    }
}

fn every_new_strip(choice: &mut Choice, input: &mut Input, then: &mut dyn FnMut(&Input)) {
    for new_len in 0..=input.strip_len + 1 {
        input.new_strip = choice.bytes(new_len);
        then(input);
    }
    let old = input.stripe.chunks(input.strip_len).nth(input.disk).unwrap_or(&[]).to_vec();
    input.new_strip.clone_from(&old);
    then(input);
    for bit in 0..8 * old.len() {
        input.new_strip[bit / 8] ^= 1 << (bit % 8);
        then(input);
        input.new_strip.clone_from(&old);
    }
}
