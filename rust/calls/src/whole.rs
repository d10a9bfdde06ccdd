//! Arguments that each call can be given, and that are as they should be: stripes of one length, and the largest codes.

use crate::cards::{card_of, card_of_size};
use crate::choice::Choice;
use crate::input::Input;
use crate::reference::strips::encoded;
use crate::reference::turns::{lost_slots, turned};
use crate::reference::{outline, records, Card};
use crate::rows::turns::any_r;
use crate::stripes::lose;

/// A stripe that has lost these disks, alone, turned, in a record and in a tray, and a new strip.
fn lost_of(choice: &mut Choice, card: Card, lost: u32, strip_len: usize) -> Input {
    let code = outline(&card).expect("a code");
    let mut stripe = encoded(&code, strip_len, &choice.bytes(code.n() * strip_len));
    lose(choice, lost, strip_len, &mut stripe);
    let file = records::write(&card, strip_len, lost, &stripe, usize::MAX).expect("a record");
    let (out_len, sets, new_strip) = (file.len(), vec![lost], choice.bytes(strip_len));
    let input =
        Input { card, strip_len, set: lost, sets, budget: 32, stripe, new_strip, file, out_len, ..Input::default() };
    let r = any_r(choice, code.n());
    let turned = turned(code.n(), strip_len, r, &input.stripe);
    Input { r, slots: lost_slots(code.n(), r, lost), turned, ..input }
}

/// Stripes of this length: 10 + 5 disks with three lost, whole and with the last byte of each strip spoiled; of short and of long strips also
/// 16 + 16 disks, of dense and of sparse columns.
pub fn of_length(choice: &mut Choice, strip_len: usize) -> Vec<Input> {
    let columns = |m: usize, column: fn(usize) -> u32| (0..m).map(|j| column(j) as u16).collect::<Vec<u16>>();
    let whole = lost_of(choice, card_of(10, 5, &columns(5, |j| 0x3ff ^ 1 << j)), 1 << 1 | 1 << 7 | 1 << 14, strip_len);
    let mut inputs = vec![whole; 16];
    for (disk, input) in inputs[1..].iter_mut().enumerate() {
        input.stripe[disk * strip_len + strip_len - 1] ^= 0x80;
        input.turned[disk * strip_len + strip_len - 1] ^= 0x80;
        input.disk = disk;
    }
    if strip_len < 130 || strip_len > 600 {
        let dense = card_of(16, 16, &columns(16, |j| 0xffff ^ 1 << j));
        let sparse = card_of(16, 16, &columns(16, |j| 0x000f_000f << j >> 16));
        for (card, disk) in [(dense, 14), (sparse, 13)] {
            inputs.push(Input { disk, ..lost_of(choice, card, 1 << 3 | 1 << 15 | 1 << 31, strip_len) });
        }
    }
    inputs
}

/// The codes of most disks: each disk lost, each disk and the next, all but it, all data, all parity and all disks. The other card has the
/// same columns, turned on by one place from input to input.
pub fn largest(choice: &mut Choice, k: usize, m: usize) -> Vec<Input> {
    let card = card_of_size(choice, k, m);
    let n = k + m;
    let all = u32::MAX >> (32 - n);
    let data = (1 << k) - 1;
    let near = (0..n).flat_map(|disk| [1 << disk, (3 << disk) & all, all ^ 1 << disk]);
    let sets = near.chain([0, data, all ^ data, all]);
    let of_set = |(at, set): (usize, u32)| {
        let input = lost_of(choice, card.clone(), set, 16);
        let mut other = card.clone();
        other[2..].rotate_left(2 * (at % m));
        Input { other, disk: at / 3 % n, out_len: 1 << 16, ..input }
    };
    sets.enumerate().map(of_set).collect()
}
