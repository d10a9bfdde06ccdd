//! What a call is given, and what it answers.

use crate::reference::{Card, Refusal};

/// The arguments of a call; each has those that its declaration names.
#[derive(Clone, Debug, Default)]
pub struct Input {
    /// The card with its edition; of one that is to be written, the edition alone.
    pub card: Card,
    /// The other card of two.
    pub other: Card,
    pub k: usize,
    pub m: usize,
    pub columns: Vec<u16>,
    pub wears: Vec<u8>,
    /// That of a card from three numbers.
    pub distance: usize,
    pub strip_len: usize,
    /// A set of disks, the lost ones where a stripe is given.
    pub set: u32,
    pub disk: usize,
    /// The lost disks of each stripe of a tray, and the steps that it may take.
    pub sets: Vec<u32>,
    pub budget: usize,
    /// A stripe, or a tray of them.
    pub stripe: Vec<u8>,
    /// The number of a stripe, its lost slots, and the stripe as it is turned by that number.
    pub r: u32,
    pub slots: u32,
    pub turned: Vec<u8>,
    /// What the disk's strip is to become.
    pub new_strip: Vec<u8>,
    pub file: Vec<u8>,
    /// How many of the file's last bytes stand on closed pages.
    pub closed: usize,
    /// The length of the slice or buffer that the answer goes into.
    pub out_len: usize,
}

/// The answer, and what stands at the front of each buffer that may be written, in the order of the declaration. What is behind
/// that keeps its bytes, and so do all buffers of a refused call.
#[derive(Clone, Debug, PartialEq, Eq)]
pub struct Told {
    pub answer: u64,
    pub written: Vec<Vec<u8>>,
}

impl Told {
    /// Out of the value that is named for the answer, 0 where none is, and of what is written.
    pub fn of(told: Result<(usize, Vec<Vec<u8>>), Refusal>) -> Told {
        match told {
            Ok((value, written)) => Told { answer: 256 * value as u64, written },
            Err(refused) => Told { answer: refusal_code(refused), written: Vec::new() },
        }
    }
}

/// A refusal as the archive answers it.
pub fn refusal_code((number, value): Refusal) -> u64 {
    u64::from(number) + 256 * value.unwrap_or(0) as u64
}

/// What the safe function answers, as the archive does.
pub fn code(answer: Result<usize, bridgecrumb::Error>) -> u64 {
    answer.map_or_else(|error| refusal_code((error.number(), error.value())), |value| 256 * value as u64)
}

/// The bytes of numbers as they stand in memory.
pub fn bytes_of<T: Copy, const W: usize>(numbers: &[T], low_first: fn(T) -> [u8; W]) -> Vec<u8> {
    numbers.iter().flat_map(|&number| low_first(number)).collect()
}
