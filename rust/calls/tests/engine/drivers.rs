//! The drivers, each over all rows of the table: chosen arguments, all arguments of small codes, the largest codes, strips of each length,
//! and faults alone and together. The archive's call and the safe function get the same, their buffers at each place in turn.

use calls::choice::{seed, Choice};
use calls::editions::{of_any_edition, worn};
use calls::input::Input;
use calls::lent::{Lent, Place};
use calls::planted;
use calls::reference::Edition;
use calls::stripes::LONG;
use calls::table::{Fault, Row};
use calls::tried::Tried;
use calls::whole::{largest, of_length};
use std::sync::atomic::{AtomicUsize, Ordering};
use std::thread;

/// Chosen arguments of each call.
const CHOSEN: usize = 100_000;
/// All arguments of codes of up to so many disks.
const DISKS: usize = 7;

/// The choices, buffers and counts of one thread.
struct Driver {
    choice: Choice<'static>,
    lent: Lent,
    tried: Tried,
    calls: usize,
}

impl Driver {
    fn try_input(&mut self, place: usize, row: &Row, input: &Input) -> u64 {
        self.calls += 1;
        let answer = row.try_input(input, &mut self.lent, Place::of_turn(self.calls));
        self.tried.count(place, answer);
        answer
    }

    /// With the cards in edition 2.
    fn try_worn(&mut self, place: usize, row: &Row, input: &Input) -> u64 {
        let mut input = input.clone();
        input.card = worn(&mut self.choice, &input.card);
        input.other = of_any_edition(&mut self.choice, input.other);
        self.try_input(place, row, &input)
    }

    /// In each edition in turn, where the caller names it.
    fn try_of_edition(&mut self, place: usize, row: &Row, input: &Input) -> u64 {
        match self.calls % 2 {
            1 if row.editions.len() > 1 => self.try_worn(place, row, input),
            _ => self.try_input(place, row, input),
        }
    }
}

/// Takes the rows, the last one first, on two threads.
fn drive(name: &str, work: impl Fn(&mut Driver, usize, &Row) + Sync) -> Tried {
    let (rows, taken) = (planted::table(), AtomicUsize::new(0));
    let worker = || {
        let mut driver = Driver { choice: Choice::named(name), lent: Lent::new(), tried: Tried::new(name), calls: 0 };
        while let Some(place) = rows.len().checked_sub(1 + taken.fetch_add(1, Ordering::Relaxed)) {
            driver.choice = Choice::named(&format!("{name}, {}", rows[place].name));
            // so that what is tried of a row doesn't depend on which thread takes it
            driver.calls = 0;
            work(&mut driver, place, &rows[place]);
        }
        driver.tried
    };
    println!("{name}: the seed is {}, and BRIDGECRUMB_SEED names another", seed());
    let mut tried = Tried::new(name);
    thread::scope(|scope| {
        for thread in [scope.spawn(worker), scope.spawn(worker)] {
            tried.add(thread.join().expect("as the reference has it"));
        }
    });
    tried.print();
    tried
}

#[test]
fn chosen() {
    drive("chosen", |driver, place, row| {
        for _ in 0..CHOSEN {
            driver.choice.rare = driver.choice.one_in(500);
            let input = (row.any)(&mut driver.choice);
            if driver.choice.rare || !(row.heavy)(&input) {
                driver.try_input(place, row, &input);
            }
        }
        driver.tried.every_refusal(place, row);
    });
}

#[test]
fn strip_lengths() {
    drive("each strip length", |driver, place, row| {
        let good = (row.good)(row.editions[0]);
        if good.strip_len == 0 && good.file.is_empty() {
            return;
        }
        for strip_len in (1..=600).chain(LONG) {
            for (at, input) in of_length(&mut driver.choice, strip_len).iter().enumerate() {
                let answer = driver.try_of_edition(place, row, input);
                assert!(answer % 256 == 0 || (1..16).contains(&at), "{}: a whole stripe is refused", row.name);
            }
            for _ in 0..4 {
                driver.choice.rare = driver.choice.one_in(40);
                driver.choice.strip_len = Some(strip_len);
                let input = (row.any)(&mut driver.choice);
                driver.try_input(place, row, &input);
            }
        }
    });
}

#[test]
fn largest_codes() {
    drive("largest codes", |driver, place, row| {
        for (k, m) in [(16, 16), (16, 1), (1, 16), (16, 8), (8, 16)] {
            for input in largest(&mut driver.choice, k, m) {
                driver.try_of_edition(place, row, &input);
            }
        }
    });
}

#[test]
fn small_codes() {
    drive("small codes", |driver, place, row| {
        for n in 0..=DISKS {
            let mut choice = Choice::named(row.name);
            (row.every)(n, &mut choice, &mut |input| {
                driver.try_input(place, row, input);
                // one in 16 with wears too
                if driver.calls % 16 == 0 && row.editions.len() > 1 && input.card.edition == Edition::First {
                    driver.try_worn(place, row, input);
                }
            });
        }
    });
}

/// The good arguments with these faults, the last in the documents' order put in first.
fn spoiled(row: &Row, edition: Edition, faults: &[&Fault]) -> Input {
    let mut input = (row.good)(edition);
    faults.iter().rev().for_each(|fault| (fault.spoil)(&mut input));
    input
}

/// A call in one edition.
struct Way<'a> {
    place: usize,
    row: &'a Row,
    edition: Edition,
}

impl Driver {
    /// The first fault is answered, whatever follows.
    fn try_faults(&mut self, way: &Way, faults: &[&Fault]) {
        let input = spoiled(way.row, way.edition, faults);
        let answer = self.try_input(way.place, way.row, &input);
        if let (Some(first), false) = (faults.first(), faults.len() > 1 && faults.iter().any(|fault| fault.alone)) {
            assert_eq!(answer, first.answer, "{}: the reference's answer to {input:?}", way.row.name);
        }
    }

    /// One way or none to each of these refusals, beside those that were taken.
    fn every_choice<'a>(&mut self, way: &Way, taken: &mut Vec<&'a Fault>, stages: &[&'a [Fault]]) {
        match stages.split_first() {
            None => self.try_faults(way, taken),
            Some((stage, later)) => {
                self.every_choice(way, taken, later);
                for fault in stage.iter() {
                    taken.push(fault);
                    self.every_choice(way, taken, later);
                    taken.pop();
                }
            }
        }
    }

    fn every_two(&mut self, way: &Way, stages: &[Vec<Fault>]) {
        for (at, stage) in stages.iter().enumerate() {
            for first in stage {
                self.try_faults(way, &[first]);
                for second in stages[at + 1..].iter().flatten() {
                    self.try_faults(way, &[first, second]);
                }
            }
        }
    }
}

#[test]
fn faults() {
    drive("faults", |driver, place, row| {
        for &edition in row.editions {
            let (way, stages) = (Way { place, row, edition }, (row.faults)(edition));
            let good = driver.try_input(place, row, &(row.good)(edition));
            assert_eq!(good % 256, 0, "{}: its good arguments are refused", row.name);
            driver.every_two(&way, &stages);
            // where all ways are too many, the first to each refusal
            let many = stages.iter().map(|stage| stage.len() + 1).product::<usize>() > 400_000;
            let first_ways = |stage: &Vec<Fault>| if many { 1 } else { stage.len() };
            let stages: Vec<&[Fault]> = stages.iter().map(|stage| &stage[..first_ways(stage)]).collect();
            driver.every_choice(&way, &mut Vec::new(), &stages);
        }
        driver.tried.every_refusal(place, row);
    });
}
