//! How many inputs were tried, by call and by what was expected.

use crate::table::{Row, TABLE};
use std::collections::BTreeMap;
use std::time::Instant;

pub struct Tried {
    name: String,
    start: Instant,
    /// For each row, how often each number was expected.
    numbers: Vec<BTreeMap<u64, u64>>,
}

impl Tried {
    pub fn new(name: &str) -> Tried {
        Tried { name: name.to_string(), start: Instant::now(), numbers: vec![BTreeMap::new(); TABLE.len()] }
    }

    /// Counts what was expected of the row of this place.
    pub fn count(&mut self, place: usize, answer: u64) {
        *self.numbers[place].entry(answer % 256).or_insert(0) += 1;
    }

    pub fn add(&mut self, other: Tried) {
        for (here, there) in self.numbers.iter_mut().zip(other.numbers) {
            there.into_iter().for_each(|(number, times)| *here.entry(number).or_insert(0) += times);
        }
    }

    /// Fails unless the call has been accepted, and refused for each reason that it has and for no other.
    pub fn every_refusal(&self, place: usize, row: &Row) {
        let faults = row.editions.iter().flat_map(|&edition| (row.faults)(edition)).flatten();
        let mut numbers: Vec<u64> = faults.map(|fault| fault.answer % 256).chain([0]).collect();
        numbers.sort_unstable();
        numbers.dedup();
        let met: Vec<u64> = self.numbers[place].keys().copied().collect();
        assert_eq!(met, numbers, "{}: {} expected these refusals of it", row.name, self.name);
    }

    /// All in one piece, so that what other threads print stays apart.
    pub fn print(&self) {
        let all: u64 = self.numbers.iter().flat_map(BTreeMap::values).sum();
        let mut text = format!("{}: {all} calls in {:.1} s", self.name, self.start.elapsed().as_secs_f64());
        for (row, numbers) in TABLE.iter().zip(&self.numbers).filter(|(_, numbers)| !numbers.is_empty()) {
            let each: Vec<String> = numbers.iter().map(|(number, times)| format!("{number}: {times}")).collect();
            text += &format!("\n    {} {} calls; {}", row.name, numbers.values().sum::<u64>(), each.join(", "));
        }
        println!("{text}");
    }
}
