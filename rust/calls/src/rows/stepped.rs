//! The call that writes a card from three numbers.

use super::cards::{any_count, count_faults};
use super::ways;
use crate::choice::Choice;
use crate::input::{code, Input, Told};
use crate::reference::{stepped, Edition};
use crate::table::Row;
use bridgecrumb::ffi;

fn of_numbers(distance: usize, m: usize, k: usize, out_len: usize) -> Input {
    Input { distance, m, k, out_len, ..Input::default() }
}

pub const STEPPED: Row = Row {
    name: "card_stepped",
    editions: &[Edition::First],
    any: any_stepped,
    every: every_stepped,
    good: |_| of_numbers(3, 3, 4, 8),
    faults: |_| {
        let distances = vec![0, 1, 2, 5, 6, 7, 256 + 3, 65536 + 4, 1 << 32, 1 << 32 | 3, 1 << 63 | 4, usize::MAX];
        // the distance, m and k
        let bounds =
            vec![(3, 3, 1), (3, 3, 5), (3, 3, 16), (3, 1, 4), (3, 2, 4), (3, 4, 4), (3, 16, 4), (4, 3, 4), (4, 5, 4)];
        let [data, parity] = count_faults();
        vec![
            data,
            parity,
            ways(20, distances, |input, &distance| input.distance = distance),
            ways(21, bounds, |input, &(distance, m, k)| *input = of_numbers(distance, m, k, input.out_len)),
            ways(7, vec![0, 7, 9, 8 + 256], |input, &len| input.out_len = len),
        ]
    },
    heavy: |_| false,
    engine: |input, lent| {
        let (out, out_len) = lent.output(input.out_len);
        // SAFETY: the buffer is as long as is said
        unsafe { ffi::bridgecrumb_card_stepped(input.distance, input.m, input.k, out, out_len) }
    },
    safe: |input, lent| {
        let out = lent.output_slice(input.out_len);
        code(bridgecrumb::write_stepped_card(input.distance, input.m, input.k, out).map(|()| 0))
    },
    reference: |input| {
        let card = stepped::card(input.distance, input.m, input.k, input.out_len);
        Told::of(card.map(|card| (0, vec![card])))
    },
};

/// Mostly a distance of 3 or 4, and the one m that goes with k.
fn any_stepped(choice: &mut Choice) -> Input {
    let distance = match choice.below(10) {
        0 => choice.pick(&[0, 1, 2, 5, 6, 7]),
        1 => choice.far_number(),
        _ => 3 + choice.below(2),
    };
    let k = any_count(choice);
    let m = match (1..=6).find(|&m| stepped::within_bounds(distance, m, k)) {
        Some(m) if !choice.one_in(4) => m,
        _ => any_count(choice),
    };
    of_numbers(distance, m, k, choice.length(2 + 2 * m.clamp(1, 16)))
}

/// Each distance up to 20 with each length of the buffer; and once, at n = 0, each distance, m and k up to 20, with a buffer that fits and two
/// that don't.
fn every_stepped(n: usize, _: &mut Choice, then: &mut dyn FnMut(&Input)) {
    for distance in 0..=20 {
        for k in 1..n {
            let m = n - k;
            (0..2 * m + 6).for_each(|out_len| then(&of_numbers(distance, m, k, out_len)));
        }
    }
    if n == 0 {
        every_three_numbers(then);
    }
}

fn every_three_numbers(then: &mut dyn FnMut(&Input)) {
    for distance in 0..=20 {
        for m in 0..=20 {
            for k in 0..=20 {
                (2 * m + 1..2 * m + 4).for_each(|out_len| then(&of_numbers(distance, m, k, out_len)));
            }
        }
    }
}
