//! The table of calls, and one input tried: given to the engine and to the reference, and every lent byte compared.

use crate::choice::Choice;
use crate::input::{Input, Told};
use crate::lent::{Lent, Place};
use crate::reference::Edition;
use crate::rows::{alike, cards, converters, records, sets, stepped, strips, trays, turns, updates, wear};

/// A call.
#[derive(Clone, Copy)]
pub struct Row {
    /// As the header has it, without its prefix.
    pub name: &'static str,
    /// The editions that a card of it can have; one where the caller does not name it.
    pub editions: &'static [Edition],
    /// Arguments by choice, good and bad.
    pub any: fn(&mut Choice) -> Input,
    /// All arguments, as far as they can be counted, that have to do with codes of so many disks.
    pub every: fn(usize, &mut Choice, &mut dyn FnMut(&Input)),
    /// Arguments that are accepted, with a card of this edition, and what spoils them: for each refusal in the documents' order, the ways to it.
    pub good: fn(Edition) -> Input,
    pub faults: fn(Edition) -> Vec<Vec<Fault>>,
    /// Whether the reference takes long.
    pub heavy: fn(&Input) -> bool,
    /// The archive's call, as the header declares it.
    pub engine: Engine,
    /// The safe function; what it answers beside its number goes into buffers as the archive's call has them.
    pub safe: Engine,
    pub reference: fn(&Input) -> Told,
}

pub type Engine = fn(&Input, &mut Lent) -> u64;

/// A change of good arguments, and what is then answered.
pub struct Fault {
    pub answer: u64,
    pub spoil: Box<dyn Fn(&mut Input)>,
    /// What it does to the answer depends on other faults too.
    pub alone: bool,
}

/// In the header's order.
pub const TABLE: [Row; 21] = [
    cards::READ,
    cards::WRITE,
    converters::UP,
    converters::DOWN,
    stepped::STEPPED,
    alike::ALIKE,
    strips::ENCODE,
    sets::VERDICT,
    sets::LIST,
    sets::EQUATIONS,
    wear::LEAST_WEAR,
    strips::REBUILD,
    strips::PARTIAL_REBUILD,
    turns::TURN,
    turns::TURN_BACK,
    turns::REBUILD_TURNED,
    trays::QUICK_REPAIR,
    updates::UPDATE,
    records::WRITE,
    records::READ,
    records::BODY,
];

impl Row {
    /// Fails where the archive's call or the safe function answers or writes anything else than the reference. Answers what was expected.
    pub fn try_input(&self, input: &Input, lent: &mut Lent, place: Place) -> u64 {
        let told = (self.reference)(input);
        self.compare(self.engine, "the archive", input, &told, lent, place);
        if input.closed == 0 {
            self.compare(self.safe, "the safe function", input, &told, lent, place);
        }
        told.answer
    }

    fn compare(&self, engine: Engine, whose: &str, input: &Input, told: &Told, lent: &mut Lent, place: Place) {
        lent.begin(place);
        let answer = engine(input, lent);
        let difference = lent.difference(&told.written);
        if answer != told.answer || difference.is_some() {
            let said = |answer: u64| (answer % 256, answer / 256);
            panic!(
                "{}, {whose}: answered {:?}, and {:?} is wanted; {}; buffers at {:?}; for {:.2000}",
                self.name,
                said(answer),
                said(told.answer),
                difference.unwrap_or_else(|| "every lent byte is right".to_string()),
                place,
                format!("{input:?}"),
            );
        }
    }
}
