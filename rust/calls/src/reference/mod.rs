//! The documents' calls by brute force, written from the papers alone: it shares nothing with the engine.
//!
//! What every disk holds is worked out for every data word, and each answer is looked up among all words and
//! sets by the paper's own definition (`literal`). For codes of more than `LITERAL_DISKS` disks that takes
//! too long; `quick` then goes through the data words alone. tests/engine/methods.rs compares the two.

pub mod cards;
pub mod literal;
pub mod quick;
pub mod records;
pub mod stepped;
pub mod strips;
pub mod trays;
pub mod turns;
pub mod updates;
pub mod wear;

pub use cards::{alike, read_card, write_card, Card, Edition, Said};

use std::cell::RefCell;
use std::collections::HashMap;
use std::rc::Rc;

/// A refusal: the documents' number, and the value that it answers, if any.
pub type Refusal = (u8, Option<usize>);

/// A refusal that answers its number alone.
pub fn refusal<T>(number: u8) -> Result<T, Refusal> {
    Err((number, None))
}

/// Up to this many disks the definitions are followed literally.
pub const LITERAL_DISKS: usize = 7;

/// A code, and what its disks hold for each data word. Lists are made once.
#[derive(Debug)]
pub struct Code {
    pub k: usize,
    pub m: usize,
    pub columns: Vec<u16>,
    /// Bit d of place x is what disk d holds for the data word x.
    pub held: Vec<u32>,
    erasures: RefCell<Option<Rc<Vec<u32>>>>,
    equations: RefCell<HashMap<usize, Rc<Vec<u32>>>>,
    agreeing: RefCell<Option<(u32, Rc<quick::Agreeing>)>>,
}

impl Code {
    pub fn n(&self) -> usize {
        self.k + self.m
    }

    /// The set of all disks.
    pub fn disks(&self) -> u32 {
        (0..self.n()).map(|disk| 1 << disk).sum()
    }

    pub fn literal(&self) -> bool {
        self.n() <= LITERAL_DISKS
    }

    /// The set number modulo 2^k.
    pub fn data_part(&self, set: u32) -> u32 {
        (u64::from(set) % (1 << self.k)) as u32
    }

    /// How many parity disks the set holds.
    pub fn parity_disks(&self, set: u32) -> usize {
        (self.k..self.n()).filter(|disk| set >> disk & 1 == 1).count()
    }

    /// What orders equations by total wear, then as the list does: by size, parity disks and set number.
    pub fn order(&self, wears: &[u8], set: u32) -> (u32, u32, usize, u32) {
        (wear::total(wears, set), set.count_ones(), self.parity_disks(set), set)
    }
}

/// What the disks hold for a data word: a data disk its own bit, a parity disk the XOR of the bits of its data disks, which
/// is 1 where an odd number of them is 1.
fn word_held(k: usize, columns: &[u16], word: u32) -> u32 {
    let mut disks = word;
    for (j, &column) in columns.iter().enumerate() {
        let ones = (word & u32::from(column)).count_ones();
        disks |= (ones % 2) << (k + j);
    }
    disks
}

/// The card's code without what its disks hold, or its refusal.
pub fn outline(card: &Card) -> Result<Code, Refusal> {
    let Said { k, m, columns, .. } = read_card(card)?;
    Ok(Code {
        k,
        m,
        columns,
        held: Vec::new(),
        erasures: None.into(),
        equations: HashMap::new().into(),
        agreeing: None.into(),
    })
}

thread_local! {
    /// The codes of the last cards, and how many data words they have together.
    static KNOWN: RefCell<(HashMap<Vec<u8>, Rc<Code>>, usize)> = RefCell::default();
}

/// The card's code, which is one for all cards with the same k, m and columns, or the card's refusal.
pub fn code(card: &Card) -> Result<Rc<Code>, Refusal> {
    let mut code = outline(card)?;
    if let Some(code) = KNOWN.with(|known| known.borrow().0.get(card.code_bytes()).cloned()) {
        return Ok(code);
    }
    code.held = (0..1 << code.k).map(|word| word_held(code.k, &code.columns, word)).collect();
    let code = Rc::new(code);
    KNOWN.with(|known| {
        let (codes, words) = &mut *known.borrow_mut();
        if *words > 1 << 20 {
            codes.clear();
            *words = 0;
        }
        codes.insert(card.code_bytes().to_vec(), code.clone());
        *words += code.held.len();
    });
    Ok(code)
}

/// The verdict call: the disks of the set that the survivors don't determine.
pub fn verdict(code: &Code, set: u32) -> Result<u32, Refusal> {
    if set & !code.disks() != 0 {
        return refusal(8);
    }
    Ok(if code.literal() { literal::undetermined(code, set) } else { quick::undetermined(code, set) })
}

/// All minimal erasures in the lister's order.
pub fn minimal_erasures(code: &Code) -> Rc<Vec<u32>> {
    let mut listed = code.erasures.borrow_mut();
    let made = listed.get_or_insert_with(|| {
        let mut found = if code.literal() { literal::minimal_erasures(code) } else { quick::minimal_erasures(code) };
        found.sort_by_key(|&set| (set.count_ones(), code.data_part(set)));
        Rc::new(found)
    });
    made.clone()
}

/// The vector of a list: m + 1 numbers, the i-th being how many entries have size i; then zeros.
pub fn vector(code: &Code, list: &[u32]) -> [usize; 17] {
    let mut vector = [0; 17];
    for i in 1..=code.m + 1 {
        vector[i - 1] = list.iter().filter(|set| set.count_ones() as usize == i).count();
    }
    vector
}

/// All equations of the disk with no smaller one inside, in the call's order.
pub fn equations(code: &Code, disk: usize) -> Result<Rc<Vec<u32>>, Refusal> {
    if disk >= code.n() {
        return refusal(9);
    }
    let mut listed = code.equations.borrow_mut();
    let made = listed.entry(disk).or_insert_with(|| {
        let mut found = if code.literal() { literal::equations(code, disk) } else { quick::equations(code, disk) };
        found.sort_by_key(|&set| (set.count_ones(), code.parity_disks(set), set));
        Rc::new(found)
    });
    Ok(made.clone())
}

/// A list that goes into a slice of this length.
pub fn fits(list: &[u32], len: usize) -> Result<(), Refusal> {
    if list.len() > len {
        return Err((10, Some(list.len())));
    }
    Ok(())
}
