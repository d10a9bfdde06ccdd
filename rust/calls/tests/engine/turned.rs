//! Document 02, request [11]: a turned stripe rebuilt from its lost slots, beside the engine's other calls. Rebuilt and then turned back is turned back and
//! then rebuilt, in the answer too.

use crate::turns::{both_ways, numbers, row, turned, turned_back};
use bridgecrumb::{rebuild, rebuild_turned, Error};
use calls::cards::{any_loss, c1, card_of, every_card, good_card};
use calls::choice::Choice;
use calls::editions::of_any_edition;
use calls::input::Input;
use calls::lent::{Lent, Place};
use calls::reference::strips::encoded;
use calls::reference::turns::lost_slots;
use calls::reference::{code, outline, verdict, Card};
use calls::stripes::lose;

const LENGTHS: [usize; 30] = [
    1, 2, 3, 4, 7, 8, 15, 16, 17, 31, 32, 33, 63, 64, 65, 127, 128, 129, 255, 257, 1000, 1023, 1024, 1025, 4095, 4096,
    4097, 8192, 65_535, 65_536,
];

/// A loss of a turned stripe: the lost disks, and their slots by the request's rule.
struct Loss {
    card: Card,
    strip_len: usize,
    r: u32,
    lost: u32,
    slots: u32,
    /// In disk order, whole.
    encoded: Vec<u8>,
    /// Turned, with other bytes in the lost slots.
    stripe: Vec<u8>,
}

impl Loss {
    fn of(choice: &mut Choice, card: Card, strip_len: usize, r: u32, lost: u32) -> Loss {
        let code = outline(&card).expect("a code");
        let slots = lost_slots(code.n(), r, lost);
        let encoded = encoded(&code, strip_len, &choice.bytes(code.n() * strip_len));
        let mut stripe = encoded.clone();
        lose(choice, lost, strip_len, &mut stripe);
        let stripe = turned(&card, strip_len, r, &stripe);
        Loss { card, strip_len, r, lost, slots, encoded, stripe }
    }

    fn said(&self) -> String {
        format!("r {}, lost {:#x}, strips of {} bytes, {:?}", self.r, self.lost, self.strip_len, self.card)
    }

    /// Rebuilt and then turned back is turned back and then rebuilt, in answer and bytes. The answer.
    fn either_order(&self) -> Result<usize, Error> {
        let (edition, strip_len) = (self.card.edition.named(), self.strip_len);
        let mut first = turned_back(&self.card, strip_len, self.r, &self.stripe);
        let answer = rebuild(edition, &self.card, strip_len, self.lost, &mut first);
        let mut now = self.stripe.clone();
        let turned_answer = rebuild_turned(edition, &self.card, strip_len, self.r, self.slots, &mut now);
        assert_eq!(turned_answer, answer, "{}", self.said());
        assert!(turned_back(&self.card, strip_len, self.r, &now) == first, "{}", self.said());
        assert!(answer.is_ok() || now == self.stripe, "{}: a refused call writes", self.said());
        answer
    }

    /// The stripe that was encoded comes back, and the answer is the number of lost disks; 11 where the loss is fatal.
    fn whole(&self) -> Result<usize, Error> {
        let answer = self.either_order();
        let fatal = verdict(&code(&self.card).expect("a code"), self.lost) != Ok(0);
        let wanted = if fatal { Err(Error::Fatal) } else { Ok(self.lost.count_ones() as usize) };
        assert_eq!(answer, wanted, "{}", self.said());
        if !fatal {
            let mut now = self.stripe.clone();
            rebuild_turned(self.card.edition.named(), &self.card, self.strip_len, self.r, self.slots, &mut now)
                .expect("as before");
            assert!(now == turned(&self.card, self.strip_len, self.r, &self.encoded), "{}", self.said());
        }
        answer
    }

    /// With a bit of a slot changed, whether it is lost or not.
    fn spoiled(&mut self, choice: &mut Choice) -> Result<usize, Error> {
        let (at, bit) = (choice.below(self.stripe.len()), 1 << choice.below(8));
        self.stripe[at] ^= bit;
        let answer = self.either_order();
        self.stripe[at] ^= bit;
        answer
    }
}

/// How many losses were tried, and what they answered.
#[derive(Default)]
struct Counts {
    cards: usize,
    sets: usize,
    fatal: usize,
    inconsistent: usize,
}

impl Counts {
    fn try_loss(&mut self, choice: &mut Choice, mut loss: Loss) {
        let answers = [loss.whole(), loss.spoiled(choice)];
        self.sets += 1;
        self.fatal += usize::from(answers[0] == Err(Error::Fatal));
        self.inconsistent += usize::from(answers[1] == Err(Error::Inconsistent));
    }

    fn print(&self, name: &str) {
        let Counts { cards, sets, fatal, inconsistent } = self;
        let often = |times: usize| times * 20 > *sets && times * 20 < sets * 19;
        assert!(often(*fatal) && often(*inconsistent), "{fatal}, {inconsistent} of {sets}: a poor choice");
        println!(
            "turned, {name}: {cards} cards, {sets} sets, {fatal} fatal, {inconsistent} of no content when spoiled"
        );
    }
}

/// Every card of up to 6 disks, every way to turn it and every set of slots; each r is one of those that turn alike.
#[test]
fn small_cards() {
    let (mut choice, mut counts) = (Choice::named("turns, small"), Counts::default());
    for n in 2..=6 {
        let alike: Vec<Vec<u32>> =
            (0..n as u32).map(|r| numbers(n).into_iter().filter(|other| other % n as u32 == r).collect()).collect();
        for first in every_card(n) {
            counts.cards += 1;
            for (r, lost) in alike.iter().flat_map(|alike| (0..1 << n).map(move |lost| (alike, lost))) {
                let (card, r) = (of_any_edition(&mut choice, first.clone()), choice.pick(r));
                let strip_len = 1 + choice.below(3);
                let loss = Loss::of(&mut choice, card, strip_len, r, lost);
                counts.try_loss(&mut choice, loss);
            }
        }
    }
    counts.print("up to 6 disks");
}

/// Up to 16 + 16 disks.
#[test]
fn any_cards() {
    let (mut choice, mut counts) = (Choice::named("turns, any"), Counts::default());
    for _ in 0..600 {
        let first = good_card(&mut choice, 16, 16);
        counts.cards += 1;
        for _ in 0..12 {
            let card = of_any_edition(&mut choice, first.clone());
            let n = usize::from(first[0] + first[1]);
            let (r, lost) = (choice.pick(&numbers(n)), any_loss(&mut choice, &first) & ((1u64 << n) - 1) as u32);
            let strip_len = 1 + choice.below(40);
            let loss = Loss::of(&mut choice, card, strip_len, r, lost);
            counts.try_loss(&mut choice, loss);
        }
    }
    counts.print("up to 16 + 16");
}

/// Strips of each length: 16 + 16 disks, 10 + 5, 4 + 3 and any, with neighbours lost that stand in the last slot and in slot 0, and with others; turned
/// both ways, rebuilt in either order, and beside the reference.
#[test]
fn each_strip_length() {
    let (mut choice, mut lent, mut turns) = (Choice::named("turns, lengths"), Lent::new(), 0);
    let columns = |m: usize, column: fn(usize) -> u32| (0..m).map(|j| column(j) as u16).collect::<Vec<u16>>();
    for strip_len in LENGTHS {
        let cards = [
            card_of(16, 16, &columns(16, |j| 0xffff ^ 1 << j)),
            card_of(16, 16, &columns(16, |j| 0x000f_000f << j >> 16)),
            card_of(10, 5, &columns(5, |j| 0x3ff ^ 1 << j)),
            c1(),
            good_card(&mut choice, 10, 16),
        ];
        for card in cards {
            let n = usize::from(card[0] + card[1]);
            let disk = choice.below(n - 1);
            let sets = [choice.set(n, 1), 0b11 << disk, choice.set(n, 3.min(n)), 0, choice.set(n, 2)];
            let numbers = [1, (n - 1 - disk) as u32, u32::MAX, 0, choice.number() as u32];
            for (lost, r) in sets.into_iter().zip(numbers) {
                let loss = Loss::of(&mut choice, card.clone(), strip_len, r, lost);
                if strip_len <= 8192 || turns % 5 == 0 {
                    both_ways(&card, strip_len, r, &loss.stripe);
                }
                let _ = loss.either_order();
                let Loss { card, slots, stripe: turned, encoded: stripe, .. } = loss;
                let input = Input { card, strip_len, r, slots, stripe, turned, ..Input::default() };
                for name in ["turn", "turn_back", "rebuild_turned"] {
                    // the reference goes through the words of 16 data disks: not for each
                    if name != "rebuild_turned" || n < 32 || turns % 5 == 0 {
                        turns += 1;
                        row(name).try_input(&input, &mut lent, Place::of_turn(turns));
                    }
                }
            }
        }
    }
}
