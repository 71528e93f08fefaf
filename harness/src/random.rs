//! Numbers that look random and follow from a seed (splitmix64).
//! The same seed gives the same numbers on every machine.

use std::cell::Cell;

/// A cell, so that one draw can stand within another's arguments.
#[derive(Clone)]
pub struct Random(Cell<u64>);

impl Random {
    pub fn new(seed: u64) -> Self {
        Random(Cell::new(seed))
    }

    /// The numbers of one case of a set, so that a case can be made without those before it.
    pub fn of_case(seed: u64, case: u64) -> Self {
        Random::new(Random::new(seed).number() ^ case)
    }

    pub fn number(&self) -> u64 {
        let mut z = self.0.get().wrapping_add(0x9e37_79b9_7f4a_7c15);
        self.0.set(z);
        z = (z ^ (z >> 30)).wrapping_mul(0xbf58_476d_1ce4_e5b9);
        z = (z ^ (z >> 27)).wrapping_mul(0x94d0_49bb_1331_11eb);
        z ^ (z >> 31)
    }

    pub fn byte(&self) -> u8 {
        self.number() as u8
    }

    /// A number from 0 to `limit - 1`.
    pub fn below(&self, limit: usize) -> usize {
        (self.number() % limit as u64) as usize
    }

    pub fn pick<T: Copy>(&self, items: &[T]) -> T {
        items[self.below(items.len())]
    }
}
