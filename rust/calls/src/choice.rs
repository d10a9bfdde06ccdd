//! Choices, out of which arguments are made: by chance, the same in every run unless BRIDGECRUMB_SEED names another seed, or
//! by a fuzzer's bytes, which past their end are 0.

use std::env;

/// The seed of a run.
pub fn seed() -> u64 {
    match env::var("BRIDGECRUMB_SEED") {
        Ok(text) => text.parse().expect("BRIDGECRUMB_SEED is a number"),
        Err(_) => 20_240_607,
    }
}

enum Source<'a> {
    /// The state of splitmix64.
    Chance(u64),
    Bytes(&'a [u8]),
}

pub struct Choice<'a> {
    source: Source<'a>,
    /// Whether these arguments may be such that the reference takes long.
    pub rare: bool,
    /// Where a strip length is to be tried, it stands here; else it is chosen.
    pub strip_len: Option<usize>,
}

impl Choice<'_> {
    /// A generator of its own for each name, so that tests don't depend on each other.
    pub fn named(name: &str) -> Choice<'static> {
        let state = name.bytes().fold(seed(), |sum, byte| sum.wrapping_mul(31).wrapping_add(u64::from(byte)));
        Choice { source: Source::Chance(state), rare: true, strip_len: None }
    }

    /// One in 64 may take long, by a sum of all bytes.
    pub fn of_bytes(bytes: &[u8]) -> Choice<'_> {
        let sum = bytes.iter().fold(2_166_136_261u32, |sum, &byte| (sum ^ u32::from(byte)).wrapping_mul(16_777_619));
        Choice { source: Source::Bytes(bytes), rare: sum >> 26 == 0, strip_len: None }
    }

    /// A number of so many bytes.
    fn take(&mut self, width: usize) -> u64 {
        match &mut self.source {
            Source::Chance(state) => {
                *state = state.wrapping_add(0x9e37_79b9_7f4a_7c15);
                let mut x = *state;
                x = (x ^ x >> 30).wrapping_mul(0xbf58_476d_1ce4_e5b9);
                x = (x ^ x >> 27).wrapping_mul(0x94d0_49bb_1331_11eb);
                (x ^ x >> 31) >> (64 - 8 * width)
            }
            Source::Bytes(left) => {
                let (now, later) = left.split_at(width.min(left.len()));
                *left = later;
                now.iter().rev().fold(0, |number, &byte| number << 8 | u64::from(byte))
            }
        }
    }

    pub fn number(&mut self) -> u64 {
        self.take(8)
    }

    /// A number from 0 to `limit` - 1, out of as few bytes as it needs.
    pub fn below(&mut self, limit: usize) -> usize {
        let width = match limit {
            0..=0x100 => 1,
            0x101..=0x10000 => 2,
            _ => 8,
        };
        (self.take(width) % limit as u64) as usize
    }

    pub fn one_in(&mut self, times: usize) -> bool {
        self.below(times) == 0
    }

    pub fn pick<T: Copy>(&mut self, from: &[T]) -> T {
        from[self.below(from.len())]
    }

    pub fn byte(&mut self) -> u8 {
        self.take(1) as u8
    }

    /// Where a fuzzer's bytes come to their end, those that were left before go round, each time changed.
    pub fn bytes(&mut self, len: usize) -> Vec<u8> {
        if let Source::Bytes(left) = &mut self.source {
            let (now, later) = left.split_at(len.min(left.len()));
            *left = later;
            let (mut bytes, mut change) = (now.to_vec(), 0u8);
            while bytes.len() < len && !now.is_empty() {
                change = change.wrapping_add(0x9d);
                let more = now.len().min(len - bytes.len());
                bytes.extend(now[..more].iter().map(|byte| byte ^ change));
            }
            bytes.resize(len, 0);
            return bytes;
        }
        let mut bytes = Vec::with_capacity(len + 8);
        while bytes.len() < len {
            bytes.extend(self.number().to_le_bytes());
        }
        bytes.truncate(len);
        bytes
    }

    /// A set of `size` of `n` disks.
    pub fn set(&mut self, n: usize, size: usize) -> u32 {
        let mut left: Vec<usize> = (0..n).collect();
        (0..size).map(|_| 1 << left.swap_remove(self.below(left.len()))).sum()
    }

    /// A number that a caller gets wrong: near a limit of bytes, half words or words, or anything.
    pub fn far_number(&mut self) -> usize {
        let at = self.pick(&[8, 16, 17, 32, 33, 62, 63, 64]);
        let power = if at == 64 { 0 } else { 1usize << at };
        match self.below(4) {
            0 => power,
            1 => power.wrapping_sub(1 + self.below(3)),
            2 => power.wrapping_add(1 + self.below(40)),
            _ => self.number() as usize,
        }
    }

    /// A length that should be `right`: mostly it is, else a little less or more, none, or 256 more, which is right in its lowest byte.
    pub fn length(&mut self, right: usize) -> usize {
        match self.below(16) {
            0 => right.saturating_sub(1),
            1 => right + 1,
            2 => self.pick(&[0, right / 2, right + 256, 2 * right]),
            3 => self.below(right + 40),
            _ => right,
        }
    }
}
