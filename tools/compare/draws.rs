//! What chance settles of a text.

use crate::random::random;

/// The random numbers that settle one text.
pub struct Draws {
    seed: u64,
    drawn: u64,
}

impl Draws {
    /// Those of number `n` of the seed.
    pub fn new(seed: u64, n: u64) -> Draws {
        Draws { seed: random(seed, n), drawn: 0 }
    }

    pub fn bits(&mut self) -> u64 {
        self.drawn += 1;
        random(self.seed, self.drawn)
    }

    /// A number from 0 on, below `end`.
    pub fn below(&mut self, end: usize) -> usize {
        (self.bits() >> 32) as usize % end
    }

    /// A number from `from` to `to`.
    pub fn between(&mut self, from: i32, to: i32) -> i32 {
        from + self.below((to - from + 1) as usize) as i32
    }

    /// True once in so many times.
    pub fn once_in(&mut self, times: usize) -> bool {
        self.below(times) == 0
    }
}
