//! Document 02, request [10]: the equation among the survivors with the least total wear. What the engine gives is held to the equations that the engine lists,
//! and to all others, minimal or not, which are made of the checks one by one.

use crate::worked::worked;
use bridgecrumb::{equations, least_wear, undetermined, Error};
use calls::cards::{any_loss, c1, card_of, every_card, good_card};
use calls::choice::Choice;
use calls::editions::{any_wears, with_wears};
use calls::input::Input;
use calls::reference::wear::{least_of_all, total};
use calls::reference::{self, code, read_card, Card, Said};
use calls::table::TABLE;

/// The equations of one disk.
struct Told {
    disk: usize,
    /// Those that the engine lists.
    listed: Vec<u32>,
    /// All sets whose XOR is the disk.
    all: Vec<u32>,
}

impl Told {
    fn of(first: &Card, disk: usize) -> Told {
        let Said { k, m, columns, .. } = read_card(first).expect("a good card");
        let mut listed = vec![0; 1 << 16];
        let count = equations(bridgecrumb::Edition::First, first, disk, &mut listed).expect("a disk of the code");
        listed.truncate(count);
        let sum = |parities: u32| {
            let chosen = (0..m).filter(|j| parities >> j & 1 == 1);
            chosen.fold(parities << k, |sum, j| sum ^ u32::from(columns[j]))
        };
        let with_disk = (0..1 << m).map(sum).filter(|set| set >> disk & 1 == 1);
        Told { disk, listed, all: with_disk.map(|set| set ^ 1 << disk).collect() }
    }

    /// The place of the engine's answer in the engine's list; none where it is 11.
    fn try_loss(&self, card: &Card, wears: &[u8], lost: u32) -> Option<usize> {
        let (edition, with_disk) = (card.edition.named(), lost | 1 << self.disk);
        let said = format!("disk {}, lost {lost:#x}, {card:?}", self.disk);
        let answer = least_wear(edition, card, self.disk, lost);
        // the disk is lost, named or not
        for named in [with_disk, lost & !(1 << self.disk)] {
            assert_eq!(least_wear(edition, card, self.disk, named), answer, "{said}");
        }
        let survives = |equation: &&u32| **equation & with_disk == 0;
        let left = undetermined(edition, card, with_disk).expect("a set of the code");
        let none = self.all.iter().find(survives).is_none();
        assert_eq!(left >> self.disk & 1 == 1, none, "{said}");
        let equation = match answer {
            Ok(equation) => equation,
            Err(error) => {
                assert_eq!((error, none), (Error::Fatal, true), "{said}");
                return None;
            }
        };
        let place = self.listed.iter().position(|&listed| listed == equation).expect("a listed equation");
        let least = total(wears, equation);
        assert!(survives(&&equation), "{said}");
        assert!(self.listed[..place].iter().filter(survives).all(|&earlier| total(wears, earlier) > least), "{said}");
        assert!(self.listed.iter().filter(survives).all(|&other| total(wears, other) >= least), "{said}");
        assert!(self.all.iter().filter(survives).all(|&other| total(wears, other) >= least), "{said}");
        Some(place)
    }
}

/// What was tried of some cards.
#[derive(Default)]
struct Counts {
    cards: usize,
    sets: usize,
    none: usize,
    /// The answer is not the first listed one among the survivors.
    later: usize,
}

impl Counts {
    fn try_loss(&mut self, told: &Told, card: &Card, wears: &[u8], lost: u32) {
        self.sets += 1;
        match told.try_loss(card, wears, lost) {
            None => self.none += 1,
            Some(place) => {
                let first = told.listed.iter().position(|equation| equation & (lost | 1 << told.disk) == 0);
                self.later += usize::from(first != Some(place));
            }
        }
    }

    fn print(&self, name: &str) {
        let Counts { cards, sets, none, later } = self;
        assert!(
            none * 10 > *sets && none * 10 < sets * 9 && later * 50 > *sets,
            "{none}, {later} of {sets}: a poor choice"
        );
        println!(
            "least wear, {name}: {cards} cards, {sets} sets, {none} leave no equation, {later} times not the first"
        );
    }
}

/// Every card of up to 6 disks, every disk and every loss, with wears for each disk.
#[test]
fn small_cards() {
    let (mut choice, mut counts) = (Choice::named("least wear, small"), Counts::default());
    for n in 2..=6 {
        for first in every_card(n) {
            counts.cards += 1;
            for disk in 0..n {
                let told = Told::of(&first, disk);
                let wears = any_wears(&mut choice, n);
                let card = with_wears(&first, &wears);
                (0..1 << n).for_each(|lost| counts.try_loss(&told, &card, &wears, lost));
            }
        }
    }
    counts.print("up to 6 disks");
}

/// Up to 16 + 16 disks.
#[test]
fn any_cards() {
    let (mut choice, mut counts) = (Choice::named("least wear, any"), Counts::default());
    for _ in 0..600 {
        let first = good_card(&mut choice, 16, 16);
        let n = usize::from(first[0] + first[1]);
        let told = Told::of(&first, choice.below(n));
        counts.cards += 1;
        for _ in 0..12 {
            let (wears, lost) = (any_wears(&mut choice, n), any_loss(&mut choice, &first));
            let lost = lost & ((1u64 << n) - 1) as u32;
            counts.try_loss(&told, &with_wears(&first, &wears), &wears, lost);
        }
    }
    counts.print("up to 16 + 16");
}

/// Where all wears are equal it is the first listed equation among the survivors, and so it is in edition 1.
#[test]
fn equal_wears() {
    let mut choice = Choice::named("least wear, equal");
    for _ in 0..400 {
        let first = good_card(&mut choice, 16, 10);
        let n = usize::from(first[0] + first[1]);
        let told = Told::of(&first, choice.below(n));
        for _ in 0..12 {
            let lost = any_loss(&mut choice, &first) & ((1u64 << n) - 1) as u32;
            let survivors = told.listed.iter().find(|&equation| equation & (lost | 1 << told.disk) == 0);
            let wanted = survivors.copied().ok_or(Error::Fatal);
            let wear = choice.pick(&[1, 2, 100, 255]);
            for card in [first.clone(), with_wears(&first, &vec![wear; n])] {
                assert_eq!(least_wear(card.edition.named(), &card, told.disk, lost), wanted, "{card:?}, {lost:#x}");
            }
        }
    }
}

/// The reference's two ways: by the list, and among all sets of disks.
#[test]
fn reference_of_all_sets() {
    let mut choice = Choice::named("least wear, all sets");
    for n in 2..=5 {
        for first in every_card(n) {
            let (code, wears) = (code(&first).expect("a code"), any_wears(&mut choice, n));
            let card = with_wears(&first, &wears);
            for (disk, lost) in (0..n).flat_map(|disk| (0..1 << n).map(move |lost| (disk, lost))) {
                let by_list = reference::wear::least_wear(&card, disk, lost).ok();
                assert_eq!(by_list, least_of_all(&code, &wears, disk, lost), "{card:?}, disk {disk}, lost {lost}");
            }
        }
    }
}

fn given(card: &Card, disk: usize, set: u32, equation: u64) {
    worked("least_wear", Input { card: card.clone(), disk, set, ..Input::default() }, 256 * equation, Vec::new());
}

fn refused(card: &Card, disk: usize, set: u32, number: u64) {
    worked("least_wear", Input { card: card.clone(), disk, set, ..Input::default() }, number, Vec::new());
}

/// With columns {0, 1} and {0}, disk 0's equations are 8 = {3}, then 6 = {1, 2}.
#[test]
fn two_equations_by_hand() {
    let first = card_of(2, 2, &[3, 1]);
    let of_wears = |wears: [u8; 4]| with_wears(&first, &wears);
    given(&first, 0, 0, 8);
    given(&of_wears([1, 1, 1, 1]), 0, 0, 8);
    // ties go by the list, and a total less by one does not
    given(&of_wears([1, 1, 1, 2]), 0, 0, 8);
    given(&of_wears([1, 1, 1, 3]), 0, 0, 6);
    given(&of_wears([9, 127, 128, 255]), 0, 0, 8);
    // 128 + 128 is 0 in eight bits
    given(&of_wears([1, 128, 128, 200]), 0, 0, 8);
    // its own wear has no effect
    given(&of_wears([255, 1, 1, 3]), 0, 0, 6);
    // what is lost is not taken; the disk may be named
    given(&of_wears([1, 1, 1, 255]), 0, 0b0010, 8);
    given(&of_wears([1, 1, 1, 255]), 0, 0b0011, 8);
    given(&of_wears([1, 1, 1, 1]), 0, 0b1000, 6);
    given(&of_wears([1, 1, 1, 1]), 0, 0b1001, 6);
    refused(&of_wears([1, 1, 1, 1]), 0, 0b1010, 11);
    refused(&of_wears([1, 1, 1, 1]), 0, 0b1111, 11);
}

/// C1's disk 0 has 22, 42, 76 and 112. A fatal loss that leaves the disk determined is no refusal; a disk in no column has no equation.
#[test]
fn worked_codes_by_hand() {
    let of_wears = |wears: [u8; 7]| with_wears(&c1(), &wears);
    given(&c1(), 0, 0, 22);
    given(&of_wears([1, 9, 1, 1, 1, 1, 1]), 0, 0, 76);
    given(&of_wears([1, 9, 1, 1, 1, 1, 1]), 0, 0b100, 112);
    given(&of_wears([1, 1, 1, 1, 1, 1, 1]), 0, 0b1110, 112);
    given(&of_wears([1, 1, 1, 1, 1, 1, 1]), 0, 0b1111, 112);
    refused(&c1(), 1, 0b1110, 11);
    refused(&c1(), 0, 0b100_0010, 11);
    given(&of_wears([1, 9, 9, 9, 8, 9, 9]), 0, 0, 22);
    given(&of_wears([1, 9, 9, 9, 9, 8, 9]), 0, 0, 42);
    // C6's disk 1 is in no column
    refused(&card_of(2, 1, &[1]), 1, 0, 11);
    given(&card_of(2, 1, &[1]), 0, 0b010, 4);
    // the longest equation, all disks but one: 16 * 255
    let wide = with_wears(&card_of(16, 1, &[0xffff]), &[255; 17]);
    given(&wide, 0, 0, 0x1fffe);
    given(&wide, 16, 0, 0xffff);
    refused(&wide, 16, 1, 11);
}

/// The card's refusals, then 8, 9, 11.
#[test]
fn refusals_in_order() {
    let (good, far) = (with_wears(&c1(), &[1; 7]), usize::MAX);
    refused(&Card::second(vec![1, 1, 1]), far, u32::MAX, 22);
    refused(&with_wears(&c1(), &[1, 1, 1, 0, 1, 1, 1]), far, u32::MAX, 23);
    refused(&Card::first(vec![4, 3, 7, 0, 16, 0, 0, 0]), far, u32::MAX, 5 + 256);
    refused(&good, far, 0x80, 8);
    refused(&good, 7, u32::MAX, 8);
    refused(&good, 7, 0x7f, 9);
    refused(&good, 1 << 32, 0x7f, 9);
    refused(&good, far, 0, 9);
    refused(&good, 6, 0x7f, 11);
    refused(&good, 6, 0x3f, 11);
}

/// The row's choices: about as many losses leave an equation as not; among several equations the least is often not the first, and often not alone.
#[test]
fn choices() {
    let row = TABLE.iter().find(|row| row.name == "least_wear").expect("the call");
    let mut choice = Choice::named("least wear, choices");
    let (mut accepted, mut none, mut several, mut later, mut ties) = (0, 0, 0, 0, 0);
    for _ in 0..20_000 {
        choice.rare = false;
        let input = (row.any)(&mut choice);
        if (row.heavy)(&input) {
            continue;
        }
        let answer = (row.reference)(&input).answer;
        none += usize::from(answer == 11);
        if answer % 256 != 0 {
            continue;
        }
        accepted += 1;
        let (code, said) = (code(&input.card).expect("a code"), read_card(&input.card).expect("a card"));
        let list = reference::equations(&code, input.disk).expect("a disk");
        let lost = input.set | 1 << input.disk;
        let left: Vec<u32> = list.iter().copied().filter(|equation| equation & lost == 0).collect();
        let least = total(&said.wears, (answer / 256) as u32);
        several += usize::from(left.len() > 1);
        later += usize::from(u64::from(left[0]) != answer / 256);
        ties += usize::from(left.iter().filter(|&&equation| total(&said.wears, equation) == least).count() > 1);
    }
    let counted =
        format!("{accepted} accepted, {none} without; {several} of several, {later} not the first, {ties} ties");
    assert!(none * 5 > accepted && none < accepted * 5 && several * 3 > accepted, "{counted}");
    assert!(later * 10 > several && ties * 10 > several, "{counted}");
}
