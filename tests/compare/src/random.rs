//! A small generator of pseudo-random numbers: the same seed gives the same numbers everywhere.

use crate::inputs::largest_value;

/// What the state grows by from word to word.
const STEP: u64 = 0x9e3779b97f4a7c15;

/// The splitmix64 generator.
pub struct Random {
    state: u64,
}

impl Random {
    pub fn new(seed: u64) -> Random {
        Random { state: seed }
    }

    /// The generator of the input with this number. Its seed is the word of this seed's own generator
    /// that comes after `number` others, which need not be drawn for it.
    pub fn of_input(seed: u64, number: u64) -> Random {
        let mut seeds = Random::new(seed.wrapping_add(number.wrapping_mul(STEP)));
        Random::new(seeds.word())
    }

    /// Any 64-bit number.
    pub fn word(&mut self) -> u64 {
        self.state = self.state.wrapping_add(STEP);
        let mut word = self.state;
        word = (word ^ (word >> 30)).wrapping_mul(0xbf58476d1ce4e5b9);
        word = (word ^ (word >> 27)).wrapping_mul(0x94d049bb133111eb);
        word ^ (word >> 31)
    }

    /// A number below `limit`.
    pub fn below(&mut self, limit: u64) -> u64 {
        self.word() % limit
    }

    /// True once in `times`, on the average.
    pub fn once_in(&mut self, times: u64) -> bool {
        self.below(times) == 0
    }

    /// One of the items.
    pub fn pick<T: Copy>(&mut self, items: &[T]) -> T {
        items[self.below(items.len() as u64) as usize]
    }

    /// A value of `size` bytes: uniform, small, near the largest, or near half. 0 for size 0.
    pub fn operand(&mut self, size: u64) -> u64 {
        if size == 0 {
            return 0;
        }
        let largest = largest_value(size);
        let half = largest / 2 + 1;
        // The wide spread reaches past every shift width, the narrow one makes equal pairs likely.
        let spread = self.pick(&[10, 80]);
        let step = self.below(spread);
        match self.below(4) {
            0 => self.word() & largest,
            1 => step,
            2 => largest - step,
            _ => half - spread / 2 + step,
        }
    }
}
