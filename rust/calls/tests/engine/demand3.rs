//! Demand 3's five statements about a set of disks, of which the engine makes four, agree: the set is fatal by two
//! data words; the verdict call's set is not empty; it contains an entry of the engine's list; some lost disk has no entry
//! of the engine's equations among the survivors; the rebuilder says 11.
//!
//! So do five about each disk, document 02's request [5]: two data words alike on the survivors differ there; the verdict
//! call's set holds it; an entry of the engine's list inside the set holds it; it is lost and has no entry of the engine's
//! equations among the survivors; the partial rebuild's answer holds it.

use crate::listed::listed;
use bridgecrumb::{Edition::First, Error};
use calls::cards::{every_card, good_card};
use calls::choice::Choice;
use calls::reference::{code, quick, strips, Card, Code};

/// What the engine lists for a card.
struct Lists {
    erasures: Vec<u32>,
    /// For each disk.
    equations: Vec<Vec<u32>>,
}

impl Lists {
    fn of(card: &Card, n: usize) -> Lists {
        let (_, erasures) = listed(card);
        let mut slice = vec![0; 1 << 16];
        let mut equations = Vec::new();
        for disk in 0..n {
            let count = bridgecrumb::equations(First, card, disk, &mut slice).unwrap();
            equations.push(slice[..count].to_vec());
        }
        Lists { erasures, equations }
    }

    /// The disks of the entries inside the set.
    fn in_listed(&self, set: u32) -> u32 {
        self.erasures.iter().filter(|&entry| entry & !set == 0).fold(0, |sum, entry| sum | entry)
    }

    fn contains_listed(&self, set: u32) -> bool {
        self.erasures.iter().any(|entry| entry & !set == 0)
    }

    /// The disks of the set that no equation among the survivors tells.
    fn untold(&self, set: u32) -> u32 {
        let told = |disk: usize| self.equations[disk].iter().any(|equation| equation & set == 0);
        (0..self.equations.len()).filter(|&disk| set >> disk & 1 == 1 && !told(disk)).map(|disk| 1 << disk).sum()
    }
}

/// A loss of a stripe that was encoded, and of one of any bytes, which may be of no content.
struct Loss<'a> {
    card: &'a Card,
    set: u32,
    strip_len: usize,
    encoded: Vec<u8>,
    /// The encoded stripe with other bytes in the lost strips.
    stripe: Vec<u8>,
    any: Vec<u8>,
}

impl Loss<'_> {
    fn of<'a>(choice: &mut Choice, card: &'a Card, code: &Code, set: u32) -> Loss<'a> {
        let strip_len = 1 + choice.below(20);
        let any = choice.bytes(code.n() * strip_len);
        let encoded = strips::encoded(code, strip_len, &any);
        let mut loss = Loss { card, set, strip_len, stripe: encoded.clone(), encoded, any };
        loss.stripe = loss.with_strips(&loss.encoded, set, |_| &loss.any[..strip_len]);
        loss
    }

    /// A stripe with other strips for the disks of the set.
    fn with_strips<'b>(&self, stripe: &[u8], set: u32, strip: impl Fn(usize) -> &'b [u8]) -> Vec<u8> {
        let mut with = stripe.to_vec();
        for (disk, old) in with.chunks_mut(self.strip_len).enumerate().filter(|(disk, _)| set >> disk & 1 == 1) {
            old.copy_from_slice(strip(disk));
        }
        with
    }

    /// Whether the rebuilder says 11. The encoded stripe is restored where it does not; the one of any bytes gets 11 all the
    /// same where the set is fatal.
    fn rebuilder_says_11(&self) -> bool {
        let (mut stripe, mut any) = (self.stripe.clone(), self.any.clone());
        let answer = bridgecrumb::rebuild(First, self.card, self.strip_len, self.set, &mut stripe);
        let other = bridgecrumb::rebuild(First, self.card, self.strip_len, self.set, &mut any);
        assert_eq!(answer == Err(Error::Fatal), other == Err(Error::Fatal), "{:?}, set {:#x}", self.card, self.set);
        match answer {
            Ok(count) => {
                assert_eq!(count, self.set.count_ones() as usize, "{:?}, set {:#x}", self.card, self.set);
                assert_eq!(stripe, self.encoded, "{:?}, set {:#x}", self.card, self.set);
            }
            Err(error) => {
                assert_eq!(error, Error::Fatal, "{:?}, set {:#x}", self.card, self.set);
                assert_eq!(stripe, self.stripe, "{:?}, set {:#x}", self.card, self.set);
            }
        }
        answer.is_err()
    }

    /// What the partial rebuild answers for the encoded stripe: these disks keep their bytes, and all others have those that were encoded. Where
    /// it answers no disk, it does to the stripe of any bytes what the rebuilder does, 12 too.
    fn partly_rebuilt(&self) -> u32 {
        let mut stripe = self.stripe.clone();
        let left =
            bridgecrumb::partial_rebuild(First, self.card, self.strip_len, self.set, &mut stripe).expect("a content");
        let kept = |disk: usize| &self.stripe[disk * self.strip_len..(disk + 1) * self.strip_len];
        assert_eq!(stripe, self.with_strips(&self.encoded, left, kept), "{:?}, set {:#x}", self.card, self.set);
        if left == 0 {
            let (mut whole, mut part) = (self.any.clone(), self.any.clone());
            let said = bridgecrumb::rebuild(First, self.card, self.strip_len, self.set, &mut whole).map(|_| 0);
            assert_eq!(bridgecrumb::partial_rebuild(First, self.card, self.strip_len, self.set, &mut part), said);
            assert_eq!(part, whole, "{:?}, set {:#x}", self.card, self.set);
        }
        left
    }
}

/// The statements about the set, and those about its disks; answers whether the set is fatal.
fn statements(choice: &mut Choice, card: &Card, code: &Code, lists: &Lists, set: u32) -> bool {
    let (fatal, undetermined) = (quick::fatal_by_two_words(code, set), quick::undetermined_by_two_words(code, set));
    let loss = Loss::of(choice, card, code, set);
    let (verdict, untold) = (bridgecrumb::undetermined(First, card, set).unwrap(), lists.untold(set));
    let of_set = [fatal, verdict != 0, lists.contains_listed(set), untold != 0, loss.rebuilder_says_11()];
    assert_eq!(of_set, [fatal; 5], "{card:?}, set {set:#x}");
    let of_disks = [undetermined, verdict, lists.in_listed(set), untold, loss.partly_rebuilt()];
    assert_eq!(of_disks, [undetermined; 5], "{card:?}, set {set:#x}");
    fatal
}

/// Sets at which a verdict is likely to turn: entries of the list, those short of a disk or with one more, equations
/// with their disk, unions, and any set.
fn any_set(choice: &mut Choice, code: &Code, lists: &Lists) -> u32 {
    let n = code.n();
    let disk = choice.below(n);
    let entry = choice.pick(&lists.erasures);
    match choice.below(8) {
        0 => entry,
        1 | 2 => entry & !(1 << disk),
        3 => (entry & entry.wrapping_sub(1)) | 1 << disk,
        4 => entry & !choice.pick(&lists.erasures) | 1 << disk,
        5 => !lists.equations[disk].first().copied().unwrap_or(0) & code.disks(),
        _ => {
            let size = choice.below(code.m + 2).min(n);
            choice.set(n, size)
        }
    }
}

/// The statements about the sets that are told for each card; prints how many there were.
fn try_cards(name: &str, cards: &[Card], sets_of: impl Fn(&mut Choice, &Code, &Lists) -> Vec<u32>) {
    let mut choice = Choice::named(name);
    let (mut sets, mut fatal) = (0, 0);
    for card in cards {
        let code = code(card).unwrap();
        let lists = Lists::of(card, code.n());
        for set in sets_of(&mut choice, &code, &lists) {
            sets += 1;
            fatal += u64::from(statements(&mut choice, card, &code, &lists, set));
        }
    }
    assert!(fatal * 5 > sets && fatal * 5 < sets * 4, "{fatal} of {sets} sets fatal: the choice of sets is poor");
    println!("demand3, {name}: {} cards, {sets} sets, {fatal} fatal", cards.len());
}

#[test]
fn small_cards() {
    let cards: Vec<Card> = (2..=6).flat_map(every_card).collect();
    try_cards("up to 6 disks", &cards, |_, code, _| (0..=code.disks()).collect());
}

fn some_cards(name: &str, cards: usize, largest: usize, sets: usize) {
    let mut choice = Choice::named(name);
    let cards: Vec<Card> = (0..cards).map(|_| good_card(&mut choice, largest, largest)).collect();
    try_cards(name, &cards, |choice, code, lists| (0..sets).map(|_| any_set(choice, code, lists)).collect());
}

#[test]
fn middling_cards() {
    some_cards("up to 8 + 8", 15_000, 8, 30);
}

#[test]
fn large_cards() {
    some_cards("up to 16 + 16", 300, 16, 60);
}
