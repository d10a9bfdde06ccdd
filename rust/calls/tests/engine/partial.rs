//! Partial rebuilds of losses that leave some disks undetermined, with strips of each length at which the engine may go another way: beside the
//! reference, and the strips that come back beside those that were encoded.

use bridgecrumb::{partial_rebuild, rebuild, Edition::First, Error};
use calls::cards::{card_of, fatal_set, good_card};
use calls::choice::Choice;
use calls::input::Input;
use calls::lent::{Lent, Place};
use calls::reference::strips::encoded;
use calls::reference::{code, verdict, Card};
use calls::stripes::lose;
use calls::table::{Row, TABLE};

const LENGTHS: [usize; 29] = [
    1, 2, 3, 4, 7, 15, 16, 17, 31, 33, 53, 54, 63, 64, 100, 127, 128, 129, 255, 257, 1000, 1023, 1024, 1025, 4096,
    4097, 8192, 32_767, 65_536,
];

fn row() -> &'static Row {
    TABLE.iter().find(|row| row.name == "partial_rebuild").expect("the partial rebuild")
}

/// Codes of 16 + 16 disks with dense and with sparse columns, of 10 + 4, and one of any size.
fn some_cards(choice: &mut Choice) -> Vec<Card> {
    let columns = |m: usize, column: fn(usize) -> u32| (0..m).map(|j| column(j) as u16).collect::<Vec<u16>>();
    let dense: Vec<u16> = (0..16).map(|_| 1 + choice.below(0xffff) as u16).collect();
    vec![
        card_of(16, 16, &dense),
        card_of(16, 16, &columns(16, |j| 0xffff ^ 1 << j)),
        card_of(16, 16, &columns(16, |j| 0x000f_000f << j >> 16)),
        card_of(10, 4, &columns(4, |j| 0x3ff ^ 0b101 << (2 * j))),
        good_card(choice, 16, 16),
    ]
}

/// A loss of an encoded stripe: the call's arguments, the stripe that was encoded, and the undetermined disks.
struct Loss {
    input: Input,
    encoded: Vec<u8>,
    undetermined: u32,
}

impl Loss {
    /// Of this set of disks.
    fn of(choice: &mut Choice, card: Card, set: u32, strip_len: usize) -> Loss {
        let code = code(&card).expect("a code");
        let encoded = encoded(&code, strip_len, &choice.bytes(code.n() * strip_len));
        let undetermined = verdict(&code, set).expect("a set of the code");
        let mut stripe = encoded.clone();
        lose(choice, set, strip_len, &mut stripe);
        Loss { input: Input { card, strip_len, set, stripe, ..Input::default() }, encoded, undetermined }
    }

    /// What this stripe is afterwards, where its survivors are those that were encoded.
    fn restored(&self, stripe: &[u8]) -> Vec<u8> {
        let mut after = self.encoded.clone();
        let strips = after.chunks_mut(self.input.strip_len).zip(stripe.chunks(self.input.strip_len)).enumerate();
        for (_, (strip, kept)) in strips.filter(|(disk, _)| self.undetermined >> disk & 1 == 1) {
            strip.copy_from_slice(kept);
        }
        after
    }

    fn said(&self) -> String {
        format!("set {:#x}, strips of {} bytes, {:?}", self.input.set, self.input.strip_len, self.input.card)
    }
}

/// For each length and each code a fatal loss of few disks beside the undetermined ones, and one of more.
fn each_loss(name: &str, mut then: impl FnMut(&mut Choice, Loss)) {
    let mut choice = Choice::named(name);
    for strip_len in LENGTHS {
        for card in some_cards(&mut choice) {
            for others in [2, 5] {
                let set = fatal_set(&mut choice, &card, others);
                let loss = Loss::of(&mut choice, card.clone(), set, strip_len);
                then(&mut choice, loss);
            }
        }
    }
}

/// Answer and every lent byte are the reference's, which are the undetermined disks, and the strips that were encoded for the others. Most
/// losses have disks of both kinds.
#[test]
fn beside_the_reference() {
    let (mut lent, mut tried, mut both) = (Lent::new(), 0, 0);
    each_loss("partial, reference", |_, loss| {
        tried += 1;
        both += usize::from(loss.undetermined != loss.input.set);
        let told = (row().reference)(&loss.input);
        assert_eq!(told.written, [loss.restored(&loss.input.stripe)], "{}", loss.said());
        let answer = row().try_input(&loss.input, &mut lent, Place::of_turn(tried));
        assert_eq!(answer, 256 * u64::from(loss.undetermined), "{}", loss.said());
        assert_ne!(answer, 0, "{}: not fatal", loss.said());
    });
    assert!(both * 2 > tried, "{both} of {tried} losses have a determined disk: the choice of losses is poor");
}

/// Other bytes in the lost strips change neither the answer nor a strip that comes back, and those of undetermined disks stay.
#[test]
fn lost_bytes_have_no_effect() {
    each_loss("partial, lost bytes", |choice, loss| {
        let Input { card, strip_len, set, stripe, .. } = &loss.input;
        let mut other = stripe.clone();
        lose(choice, *set, *strip_len, &mut other);
        for before in [other, loss.encoded.clone(), vec![0; stripe.len()]] {
            let mut now = stripe.clone();
            let strips = now.chunks_mut(*strip_len).zip(before.chunks(*strip_len)).enumerate();
            strips.filter(|(disk, _)| set >> disk & 1 == 1).for_each(|(_, (strip, lost))| strip.copy_from_slice(lost));
            let wanted = loss.restored(&now);
            assert_eq!(
                partial_rebuild(First, card, *strip_len, *set, &mut now),
                Ok(loss.undetermined),
                "{}",
                loss.said()
            );
            assert!(now == wanted, "{}", loss.said());
        }
    });
}

/// A bit of a survivor changed, in its first byte, a middle one or the last, is noticed where some check among the survivors has the disk, and
/// nothing is then written. Where none has, what comes back follows it; the reference says which. Both happen.
#[test]
fn spoiled_survivors() {
    let (mut lent, mut turn, mut accepted, mut refused) = (Lent::new(), 0, 0, 0);
    each_loss("partial, spoiled", |choice, mut loss| {
        let (strip_len, n) = (loss.input.strip_len, loss.encoded.len() / loss.input.strip_len);
        let disks: Vec<usize> = (0..n).filter(|disk| loss.input.set >> disk & 1 == 0).collect();
        if disks.is_empty() {
            return;
        }
        for t in [0, strip_len / 2, strip_len - 1] {
            let (at, bit) = (choice.pick(&disks) * strip_len + t, 1 << choice.below(8));
            loss.input.stripe[at] ^= bit;
            turn += 1;
            match row().try_input(&loss.input, &mut lent, Place::of_turn(turn)) {
                12 => refused += 1,
                answer => {
                    assert_eq!(answer, 256 * u64::from(loss.undetermined), "{}", loss.said());
                    accepted += 1;
                }
            }
            loss.input.stripe[at] ^= bit;
        }
    });
    assert!(accepted > 0 && refused > 0, "{accepted} accepted, {refused} refused: the choice of losses is poor");
}

/// Where nothing is undetermined, it leaves the rebuilder's stripe and answers no disk; where something is, the rebuilder answers 11.
#[test]
fn beside_the_rebuilder() {
    let mut choice = Choice::named("partial, rebuilder");
    let (mut whole, mut fatal) = (0, 0);
    for strip_len in LENGTHS {
        for card in some_cards(&mut choice) {
            for size in [0, 1, 2, 3, 5] {
                let n = usize::from(card[0]) + usize::from(card[1]);
                let set = choice.set(n, size.min(n));
                let loss = Loss::of(&mut choice, card.clone(), set, strip_len);
                let (mut part, mut all) = (loss.input.stripe.clone(), loss.input.stripe.clone());
                let answers = (
                    partial_rebuild(First, &card, strip_len, set, &mut part),
                    rebuild(First, &card, strip_len, set, &mut all),
                );
                if loss.undetermined == 0 {
                    whole += 1;
                    assert_eq!(answers, (Ok(0), Ok(set.count_ones() as usize)), "{}", loss.said());
                    assert!(part == loss.encoded && all == loss.encoded, "{}", loss.said());
                } else {
                    fatal += 1;
                    assert_eq!(answers, (Ok(loss.undetermined), Err(Error::Fatal)), "{}", loss.said());
                    assert!(part == loss.restored(&loss.input.stripe) && all == loss.input.stripe, "{}", loss.said());
                }
            }
        }
    }
    assert!(whole > 0 && fatal > 0, "{whole} whole, {fatal} fatal: the choice of losses is poor");
}

/// The row's choices: accepted losses are fatal about as often as not, many fatal ones have determined disks, and survivors of no content
/// are met in fatal losses and in others.
#[test]
fn choices() {
    let mut choice = Choice::named("partial, choices");
    let (mut whole, mut fatal, mut both, mut refused) = (0, 0, 0, [0; 2]);
    for _ in 0..20_000 {
        choice.rare = false;
        let input = (row().any)(&mut choice);
        let answer = (row().reference)(&input).answer;
        match answer {
            12 => {
                let code = code(&input.card).expect("a code");
                refused[usize::from(verdict(&code, input.set) != Ok(0))] += 1;
            }
            0 => whole += 1,
            _ if answer % 256 == 0 => {
                fatal += 1;
                both += usize::from(answer != 256 * u64::from(input.set));
            }
            _ => {}
        }
    }
    let said = format!("{whole} whole, {fatal} fatal, {both} of them in part, {refused:?} of no content");
    assert!(fatal * 3 > whole && fatal < whole * 3 && both * 5 > fatal, "{said}");
    assert!(refused.iter().all(|&times| times * 10 > whole), "{said}");
}
