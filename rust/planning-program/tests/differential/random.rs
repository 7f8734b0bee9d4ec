//! Numbers that are the same for the same seed: SplitMix64.

use super::task::{Bounds, Pair};

pub struct Random {
    state: u64,
}

impl Random {
    pub fn new(seed: u64) -> Self {
        Random { state: seed }
    }

    pub fn number(&mut self) -> u64 {
        self.state = self.state.wrapping_add(0x9e37_79b9_7f4a_7c15);
        let mut mixed = self.state;
        mixed = (mixed ^ (mixed >> 30)).wrapping_mul(0xbf58_476d_1ce4_e5b9);
        mixed = (mixed ^ (mixed >> 27)).wrapping_mul(0x94d0_49bb_1331_11eb);
        mixed ^ (mixed >> 31)
    }

    pub fn below(&mut self, end: usize) -> usize {
        (self.number() % end as u64) as usize
    }

    /// From `first` to `last`, both included.
    pub fn between(&mut self, first: u8, last: u8) -> u8 {
        first + self.below(usize::from(last - first) + 1) as u8
    }

    /// `first` or any byte above it.
    pub fn at_least(&mut self, first: u8) -> u8 {
        let last = self.pick(&[first, 255]);
        self.between(first, last)
    }

    /// One of so many, counted from 0, and the last one more often than others.
    pub fn index(&mut self, count: u8) -> u8 {
        let first = self.pick(&[0, 0, 0, count - 1]);
        self.between(first, count - 1)
    }

    /// From 1 to `most`, and mostly no more than `usual`.
    pub fn size(&mut self, usual: u8, most: u8) -> u8 {
        match self.below(16) {
            0 => most,
            1 => self.between(1, most),
            _ => self.between(1, usual),
        }
    }

    pub fn one_in(&mut self, turns: usize) -> bool {
        self.below(turns) == 0
    }

    pub fn pick<T: Copy>(&mut self, choices: &[T]) -> T {
        choices[self.below(choices.len())]
    }

    pub fn shuffle<T>(&mut self, items: &mut [T]) {
        for last in (1..items.len()).rev() {
            items.swap(last, self.below(last + 1));
        }
    }

    pub fn byte(&mut self) -> u8 {
        self.number() as u8
    }

    pub fn bytes(&mut self, len: usize) -> Vec<u8> {
        (0..len).map(|_| self.byte()).collect()
    }

    /// Some facts of a set: none, a few, half of them or all.
    pub fn some_of(&mut self, set: u64) -> u64 {
        match self.below(8) {
            0 | 1 => 0,
            2 => set,
            3 | 4 => set & self.number(),
            _ => set & self.number() & self.number(),
        }
    }

    /// A pair of some facts of the one set and some of the other.
    pub fn pair(&mut self, first: u64, second: u64) -> Pair {
        Pair(self.some_of(first), self.some_of(second))
    }

    /// A pair of any facts of a set, none of them twice.
    pub fn any_pair(&mut self, set: u64) -> Pair {
        let side = self.number();
        self.pair(set & side, set & !side)
    }

    /// The procedure and the number of any line of a program.
    pub fn line(&mut self, bounds: &Bounds) -> (u8, u8) {
        let procedure = self.between(0, bounds.procedures - 1);
        (procedure, self.between(0, bounds.last_line))
    }
}
