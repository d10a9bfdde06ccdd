//! A code, and the engine's answers about it.

use bridgecrumb::Edition;

/// What a lent slot holds that the engine leaves alone.
const FREE: u32 = 0xDEAD_BEEF;

/// `columns[j]` has bit i where data disk i goes into parity disk k + j.
#[derive(Clone, Debug)]
pub struct Code {
    pub k: usize,
    pub columns: Vec<u16>,
}

impl Code {
    pub fn new(k: usize, columns: &[u16]) -> Code {
        Code { k, columns: columns.to_vec() }
    }

    /// `rows[i]` has bit j where data disk i goes into parity disk k + j.
    pub fn from_rows(m: usize, rows: &[u16]) -> Code {
        let column = |j: usize| rows.iter().enumerate().map(|(i, row)| (row >> j & 1) << i).sum();
        Code { k: rows.len(), columns: (0..m).map(column).collect() }
    }

    pub fn m(&self) -> usize {
        self.columns.len()
    }

    pub fn n(&self) -> usize {
        self.k + self.m()
    }

    /// The set of data disks in a set.
    pub fn data_part(&self, set: u32) -> u32 {
        set & ((1 << self.k) - 1)
    }

    /// The set of parity disks that data disk i goes into, and disk i: 000's base erasure.
    pub fn base(&self, i: usize) -> u32 {
        let parity = |(j, column): (usize, &u16)| ((column >> i & 1) as u32) << (self.k + j);
        1 << i | self.columns.iter().enumerate().map(parity).sum::<u32>()
    }

    fn card(&self) -> Vec<u8> {
        let mut card = vec![self.k as u8, self.m() as u8];
        self.columns.iter().for_each(|column| card.extend(column.to_le_bytes()));
        card
    }

    /// The engine's list. The vector that comes with it has to count it, and what is past it stays.
    pub fn listed(&self) -> Vec<u32> {
        let mut out = vec![FREE; 1 << self.k];
        let answer = bridgecrumb::minimal_erasures(Edition::First, &self.card(), &mut out).expect("a sound card");
        assert!(out[answer.count..].iter().all(|&slot| slot == FREE), "{:?}", self);
        out.truncate(answer.count);
        let mut vector = [0; 17];
        vector[..=self.m()].copy_from_slice(&by_size(&out, self.m() + 1));
        assert_eq!(answer.vector, vector, "{:?}", self);
        assert_eq!(answer.vector.iter().sum::<usize>(), answer.count, "{:?}", self);
        out
    }

    /// The engine's vector: m + 1 numbers, where document 000's has m.
    pub fn vector(&self) -> Vec<usize> {
        let mut out = vec![FREE; 1 << self.k];
        let answer = bridgecrumb::minimal_erasures(Edition::First, &self.card(), &mut out).expect("a sound card");
        answer.vector[..=self.m()].to_vec()
    }

    /// The distance as the engine tells it: the vector's first place that is not 0.
    pub fn distance(&self) -> usize {
        first_place(&self.vector())
    }

    /// The engine's verdict: the disks of the set that stay undetermined.
    pub fn undetermined(&self, set: u32) -> u32 {
        bridgecrumb::undetermined(Edition::First, &self.card(), set).expect("a set of this code")
    }

    pub fn is_fatal(&self, set: u32) -> bool {
        self.undetermined(set) != 0
    }

    /// The engine's equations of a disk.
    pub fn equations(&self, disk: usize) -> Vec<u32> {
        let mut out = vec![FREE; 1 << self.m()];
        let count = bridgecrumb::equations(Edition::First, &self.card(), disk, &mut out).expect("a disk of this code");
        assert!(out[count..].iter().all(|&slot| slot == FREE), "{:?}", self);
        out.truncate(count);
        out
    }

    /// What equations are ordered by: size, then parity disks, then set number.
    pub fn equation_order(&self, set: u32) -> (usize, usize, u32) {
        (size(set), size(set >> self.k), set)
    }
}

pub fn size(set: u32) -> usize {
    set.count_ones() as usize
}

/// How many entries have size 1, 2, .. places.
pub fn by_size(list: &[u32], places: usize) -> Vec<usize> {
    (1..=places).map(|i| list.iter().filter(|&&set| size(set) == i).count()).collect()
}

/// The first place of a vector that is not 0.
pub fn first_place(vector: &[usize]) -> usize {
    1 + vector.iter().position(|&count| count != 0).expect("a number that is not 0")
}

pub fn choose(n: usize, r: usize) -> usize {
    (0..r).fold(1, |product, i| product * (n - i) / (i + 1))
}
