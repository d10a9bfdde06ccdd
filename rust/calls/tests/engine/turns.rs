//! Document 02, request [11]: stripes turned and turned back, with every number of disks, small r and those at the edges; refusals in order; and codes
//! by hand, with rebuilds.

use crate::worked::worked;
use bridgecrumb::{turn, turn_back};
use calls::cards::{c1, card_of, card_of_size};
use calls::choice::Choice;
use calls::editions::worn;
use calls::input::Input;
use calls::lent::{Lent, Place};
use calls::reference::Card;
use calls::table::{Row, TABLE};

pub fn row(name: &str) -> &'static Row {
    TABLE.iter().find(|row| row.name == name).expect("a call of this name")
}

/// All below 2n, both sides of the ends of 8, 16, 31 and 32 bits, and the n before 2^32.
pub fn numbers(n: usize) -> Vec<u32> {
    let n = n as u32;
    let edges = [255, 256, 257, 65_535, 65_536, (1 << 31) - 1, 1 << 31];
    (0..2 * n).chain(edges).chain((1..=n).map(|less| u32::MAX - less + 1)).collect()
}

pub fn turned(card: &Card, strip_len: usize, r: u32, stripe: &[u8]) -> Vec<u8> {
    let mut out = vec![0x5a; stripe.len()];
    assert_eq!(turn(card.edition.named(), card, strip_len, r, stripe, &mut out), Ok(()), "r {r}, {card:?}");
    out
}

pub fn turned_back(card: &Card, strip_len: usize, r: u32, stripe: &[u8]) -> Vec<u8> {
    let mut out = vec![0x5a; stripe.len()];
    assert_eq!(turn_back(card.edition.named(), card, strip_len, r, stripe, &mut out), Ok(()), "r {r}, {card:?}");
    out
}

/// Both calls undo each other, and every slot has the strip of its disk.
pub fn both_ways(card: &Card, strip_len: usize, r: u32, stripe: &[u8]) {
    let (there, back) = (turned(card, strip_len, r, stripe), turned_back(card, strip_len, r, stripe));
    let said = format!("r {r}, strips of {strip_len} bytes, {card:?}");
    assert!(turned_back(card, strip_len, r, &there) == stripe, "{said}");
    assert!(turned(card, strip_len, r, &back) == stripe, "{said}");
    let strips = |bytes: &[u8]| bytes.chunks(strip_len).map(<[u8]>::to_vec).collect::<Vec<_>>();
    let (stripe, there, back) = (strips(stripe), strips(&there), strips(&back));
    let n = stripe.len();
    for (disk, slot) in (0..n).map(|disk| (disk, ((u128::from(r) + disk as u128) % n as u128) as usize)) {
        assert!(there[slot] == stripe[disk] && back[disk] == stripe[slot], "{said}: disk {disk}, slot {slot}");
    }
}

/// 2 to 32 disks: as many data disks as can be, as few, and some; both editions; beside the reference too.
#[test]
fn every_number_of_disks() {
    let (mut choice, mut lent, mut turns) = (Choice::named("turns, disks"), Lent::new(), 0);
    for n in 2..=32usize {
        let (least, most) = (n.saturating_sub(16).max(1), (n - 1).min(16));
        for k in [least, most, least + choice.below(most - least + 1)] {
            let first = card_of_size(&mut choice, k, n - k);
            for card in [first.clone(), worn(&mut choice, &first)] {
                for r in numbers(n) {
                    let strip_len = 1 + choice.below(20);
                    let (stripe, turned) = (choice.bytes(n * strip_len), choice.bytes(n * strip_len));
                    both_ways(&card, strip_len, r, &stripe);
                    let input = Input { card: card.clone(), strip_len, r, stripe, turned, ..Input::default() };
                    for row in [row("turn"), row("turn_back")] {
                        turns += 1;
                        assert_eq!(row.try_input(&input, &mut lent, Place::of_turn(turns)), 0);
                    }
                }
            }
        }
    }
}

/// Slots about n and stripes that are empty, a byte short and a byte long, alone and together with a wrong strip length: 6, then 8, then 7, then 11. Either
/// buffer of a turn: 6, then 7.
#[test]
fn at_the_limits() {
    let (mut lent, mut turns) = (Lent::new(), 0);
    let mut choice = Choice::named("turns, limits");
    let cards = [card_of(1, 1, &[1]), c1(), card_of(16, 15, &[0xffff; 15]), card_of(16, 16, &[0x8001; 16])];
    for (card, good_len) in cards.iter().flat_map(|card| [1, 3, 100, 65_536].map(|len| (card, len))) {
        let n = usize::from(card[0] + card[1]);
        let all = ((1u64 << n) - 1) as u32;
        let lens = |len: usize| [0, len - 1, len, len + 1];
        let outside: Vec<u32> = (n..32).step_by(3).map(|slot| 1 << slot).chain([!all]).collect();
        for (strip_len, len) in
            [good_len, 0, 65_537, 1 << 62].iter().flat_map(|&l| lens(n * good_len).map(|len| (l, len)))
        {
            let r = choice.pick(&numbers(n));
            let mut tried = |name: &str, input: &Input, wanted: u64| {
                turns += 1;
                let answer = row(name).try_input(input, &mut lent, Place::of_turn(turns));
                assert_eq!(answer % 256, wanted, "{name}: n {n}, r {r}, strip length {strip_len}, {len} bytes");
            };
            let right = len == n * good_len;
            for slots in [all].iter().chain(&outside) {
                let (slots, turned) = (*slots | 1, choice.bytes(len));
                let wanted = match () {
                    () if strip_len != good_len => 6,
                    () if slots & !all != 0 => 8,
                    () if !right => 7,
                    () => 11,
                };
                let input = Input { card: card.clone(), strip_len, r, slots, turned, ..Input::default() };
                // without an outside set a call reaches the words of 16 data disks
                if wanted != 11 || good_len < 100 || n < 32 {
                    tried("rebuild_turned", &input, wanted);
                }
            }
            for other in lens(n * good_len) {
                let wanted = match () {
                    () if strip_len != good_len => 6,
                    () if !right || other != len => 7,
                    () => 0,
                };
                let (stripe, turned) = (choice.bytes(len), choice.bytes(other));
                let input = Input { card: card.clone(), strip_len, r, stripe, turned, ..Input::default() };
                tried("turn", &input, wanted);
                tried("turn_back", &input, wanted);
            }
        }
    }
}

/// C7's stripe, and C8 to C10 in slots. 2^32 - 1 is 3 modulo 7, and 2^31 is 2.
#[test]
fn c7_turned() {
    let whole = [0x11, 0x22, 0x44, 0x88, 0x77, 0xBB, 0xDD];
    let by_two = [0xBB, 0xDD, 0x11, 0x22, 0x44, 0x88, 0x77];
    let by_three = [0x77, 0xBB, 0xDD, 0x11, 0x22, 0x44, 0x88];
    let way = |name: &str, r, from: [u8; 7], to: [u8; 7]| {
        let input = Input { card: c1(), strip_len: 1, r, ..Input::default() };
        let input = match name {
            "turn" => Input { stripe: from.to_vec(), turned: vec![0; 7], ..input },
            _ => Input { turned: from.to_vec(), stripe: vec![0; 7], ..input },
        };
        worked(name, input, 0, vec![to.to_vec()]);
    };
    for (r, turned) in [(0, whole), (7, whole), (2, by_two), (9, by_two), (1 << 31, by_two), (u32::MAX, by_three)] {
        way("turn", r, whole, turned);
        way("turn_back", r, turned, whole);
    }
    way("turn_back", 5, whole, by_two);
    let lost = |r, slots, stripe: [u8; 7], answer, after: &[[u8; 7]]| {
        let input = Input { card: c1(), strip_len: 1, r, slots, turned: stripe.to_vec(), ..Input::default() };
        worked("rebuild_turned", input, answer, after.iter().map(|stripe| stripe.to_vec()).collect());
    };
    // disks 0 to 2 are in slots 3 to 5
    lost(u32::MAX, 0b11_1000, [0x77, 0xBB, 0xDD, 9, 9, 9, 0x88], 3 * 256, &[by_three]);
    lost(3, 0, by_three, 0, &[by_three]);
    lost(3, 0b1000, [0x77, 0xBB, 0xDC, 9, 0x22, 0x44, 0x88], 12, &[]);
    lost(3, 0b111_0000, by_three, 11, &[]);
    // the same slots without turning are disks 4 to 6, the parities
    lost(0, 0b111_0000, [0x11, 0x22, 0x44, 0x88, 9, 9, 9], 3 * 256, &[whole]);
    // with two disks of one content, each r is odd or even
    let pair = |r, slots, stripe: [u8; 2], after: [u8; 2]| {
        let (card, turned) = (card_of(1, 1, &[1]), stripe.to_vec());
        let input = Input { card, strip_len: 1, r, slots, turned, ..Input::default() };
        worked("rebuild_turned", input, 256, vec![after.to_vec()]);
    };
    pair(u32::MAX, 0b10, [5, 9], [5, 5]);
    pair(u32::MAX - 1, 0b01, [9, 5], [5, 5]);
}

/// The rows' choices. Of losses many are accepted, fatal and of no content; most accepted stripes are truly turned, and many by numbers that fewer bits
/// don't hold, or that go past 2^32 with a disk. Of turns about a third is accepted, and 7 is met with equal lengths and with unlike ones.
#[test]
fn choices() {
    let mut choice = Choice::named("turns, choices");
    let (mut answers, mut turned, mut wide, mut past) = ([0; 25], 0, 0, 0);
    for _ in 0..20_000 {
        choice.rare = false;
        let input = (row("rebuild_turned").any)(&mut choice);
        let answer = (row("rebuild_turned").reference)(&input).answer;
        answers[answer as usize % 256] += 1;
        if answer % 256 == 0 {
            let n = (input.turned.len() / input.strip_len) as u32;
            turned += usize::from(input.r % n != 0);
            wide += usize::from(input.r % n != input.r % 65_536 % n);
            past += usize::from(input.r > u32::MAX - n + 1);
        }
    }
    let said = format!("{turned} turned, {wide} wide, {past} past 2^32, {answers:?}");
    assert!(turned * 4 > answers[0] * 3 && wide * 4 > answers[0] && past * 20 > answers[0], "{said}");
    assert!(answers[0] > 3_000 && [11, 12, 8, 7].iter().all(|&number: &usize| answers[number] > 500), "{said}");
    let (mut accepted, mut other, mut unlike) = (0, 0, 0);
    for _ in 0..20_000 {
        let input = (row("turn").any)(&mut choice);
        let answer = (row("turn").reference)(&input).answer;
        accepted += usize::from(answer == 0);
        other += usize::from(answer == 7 && input.stripe.len() == input.turned.len());
        unlike += usize::from(answer == 7 && input.stripe.len() != input.turned.len());
    }
    assert!(accepted > 6_000 && other > 1_000 && unlike > 1_000, "{accepted} accepted, {other} and {unlike} of 7");
}
