//! Updates of disks in few and in many columns, with strips of each length at which the engine may go another way: beside the
//! reference, and the engine's update beside its encoder.

use bridgecrumb::{encode, update, Edition::First};
use calls::cards::card_naming;
use calls::choice::Choice;
use calls::input::Input;
use calls::lent::{Lent, Place};
use calls::reference::outline;
use calls::reference::strips::encoded;
use calls::table::TABLE;

const LENGTHS: [usize; 29] = [
    1, 2, 7, 15, 16, 17, 31, 32, 33, 63, 64, 65, 100, 127, 128, 129, 511, 512, 513, 1023, 1024, 1025, 1100, 2048, 4096,
    4097, 10_000, 65_535, 65_536,
];
/// In how many columns the disk stands.
const NAMING: [usize; 10] = [0, 1, 2, 3, 4, 5, 6, 7, 15, 16];

/// An encoded stripe, a data disk in so many columns, the last one of the largest code or any, and a new strip; the columns' set.
fn encoded_input(choice: &mut Choice, largest: bool, naming: usize, strip_len: usize) -> (Input, u32) {
    let least_m = naming.max(1);
    let (k, m, disk) = match (2 + choice.below(15), least_m + choice.below(17 - least_m)) {
        _ if largest => (16, 16, 15),
        (k, m) => (k, m, choice.below(k)),
    };
    let columns = choice.set(m, naming);
    let card = card_naming(choice, k, m, disk, columns);
    let stripe = encoded(&outline(&card).expect("a code"), strip_len, &choice.bytes((k + m) * strip_len));
    (Input { new_strip: choice.bytes(strip_len), card, strip_len, disk, stripe, ..Input::default() }, columns)
}

/// For each number of columns and each length three inputs.
fn each_way(name: &str, mut then: impl FnMut(&mut Choice, Input, u32)) {
    let mut choice = Choice::named(name);
    for naming in NAMING {
        for strip_len in LENGTHS {
            for turn in 0..3 {
                let (input, columns) = encoded_input(&mut choice, turn == 0, naming, strip_len);
                then(&mut choice, input, columns);
            }
        }
    }
}

/// The disk's strip in the stripe.
fn strip_of(input: &Input) -> std::ops::Range<usize> {
    input.disk * input.strip_len..(input.disk + 1) * input.strip_len
}

/// A stripe that is encoded, and one of any bytes; the answer is 1 and the naming parities.
#[test]
fn beside_the_reference() {
    let row = TABLE.iter().find(|row| row.name == "update").expect("the update");
    let (mut lent, mut turn) = (Lent::new(), 0);
    each_way("updates, reference", |choice, input, columns| {
        let any = Input { stripe: choice.bytes(input.stripe.len()), ..input.clone() };
        for input in [input, any] {
            turn += 1;
            let answer = row.try_input(&input, &mut lent, Place::of_turn(turn));
            assert_eq!(answer, 256 * (1 + u64::from(columns.count_ones())), "disk {}, {:?}", input.disk, input.card);
        }
    });
}

/// On an encoded stripe the outcome is encoding afresh, and the old strip brings the old stripe back.
#[test]
fn as_encoding_afresh() {
    each_way("updates, afresh", |_, input, columns| {
        let Input { card, strip_len, disk, .. } = &input;
        let (naming, mut now, mut afresh) = (columns.count_ones() as usize, input.stripe.clone(), input.stripe.clone());
        assert_eq!(update(First, card, *strip_len, &mut now, *disk, &input.new_strip), Ok(1 + naming));
        afresh[strip_of(&input)].copy_from_slice(&input.new_strip);
        encode(First, card, *strip_len, &mut afresh).expect("a stripe");
        assert!(now == afresh, "disk {disk}, strips of {strip_len} bytes, {card:?}");
        assert_eq!(update(First, card, *strip_len, &mut now, *disk, &input.stripe[strip_of(&input)]), Ok(1 + naming));
        assert!(now == input.stripe, "disk {disk}, strips of {strip_len} bytes, {card:?}");
    });
}

/// A byte that changes in the data strip changes that byte in every naming parity, by as much, and nowhere else; the stripe has
/// any bytes.
#[test]
fn one_byte() {
    each_way("updates, one byte", |choice, mut input, columns| {
        let (strip_len, disk) = (input.strip_len, input.disk);
        let (t, change) = (choice.below(strip_len), 1 + choice.below(255) as u8);
        input.stripe = choice.bytes(input.stripe.len());
        input.new_strip = input.stripe[strip_of(&input)].to_vec();
        input.new_strip[t] ^= change;
        let mut wanted = input.stripe.clone();
        let parities = (0..16).filter(|j| columns >> j & 1 == 1).map(|j| usize::from(input.card[0]) + j);
        parities.chain([disk]).for_each(|other| wanted[other * strip_len + t] ^= change);
        update(First, &input.card, strip_len, &mut input.stripe, disk, &input.new_strip).expect("a stripe");
        assert!(input.stripe == wanted, "disk {disk}, byte {t} of {strip_len}, {:?}", input.card);
    });
}

/// A refused call changes no byte: disks about k and n, and stripes and new strips that are empty, a byte short and a byte long,
/// alone and together, with short and with long strips.
#[test]
fn at_the_limits() {
    let row = TABLE.iter().find(|row| row.name == "update").expect("the update");
    let (mut lent, mut turn) = (Lent::new(), 0);
    let mut choice = Choice::named("updates, limits");
    for (naming, strip_len) in [(1, 1), (3, 100), (7, 1100), (16, 65_536)] {
        let (good, _) = encoded_input(&mut choice, false, naming, strip_len);
        let (k, n) = (usize::from(good.card[0]), good.stripe.len() / strip_len);
        let lens = |len: usize| [0, len - 1, len, len + 1];
        for disk in [0, k - 1, k, n - 1, n, n + 1, usize::MAX] {
            for stripe_len in lens(n * strip_len) {
                for new_len in lens(strip_len) {
                    let number = match () {
                        () if disk >= n => 9,
                        () if disk >= k => 18,
                        () if stripe_len != n * strip_len => 7,
                        () if new_len != strip_len => 19,
                        () => 0,
                    };
                    let mut input = Input { disk, ..good.clone() };
                    input.stripe.resize(stripe_len, 0x5a);
                    input.new_strip.resize(new_len, 0x5a);
                    turn += 1;
                    let answer = row.try_input(&input, &mut lent, Place::of_turn(turn));
                    assert_eq!(answer % 256, number, "disk {disk} of {k} and {n}, lengths {stripe_len} and {new_len}");
                }
            }
        }
    }
}
