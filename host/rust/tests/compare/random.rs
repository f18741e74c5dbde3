//! Numbers of chance from a seed (splitmix64).

use std::cell::Cell;

/// Drawn from by `&self`, so that one draw can choose among others.
pub struct Random(Cell<u64>);

impl Random {
    pub fn new(seed: u64) -> Random {
        Random(Cell::new(seed))
    }

    pub fn next(&self) -> u64 {
        let state = self.0.get().wrapping_add(0x9e37_79b9_7f4a_7c15);
        self.0.set(state);
        let mixed = (state ^ state >> 30).wrapping_mul(0xbf58_476d_1ce4_e5b9);
        let mixed = (mixed ^ mixed >> 27).wrapping_mul(0x94d0_49bb_1331_11eb);
        mixed ^ mixed >> 31
    }

    pub fn byte(&self) -> u8 {
        self.next() as u8
    }

    pub fn bytes(&self, count: usize) -> Vec<u8> {
        (0..count).map(|_| self.byte()).collect()
    }

    /// For a ledger or list.
    pub fn entries(&self, count: usize) -> Vec<u64> {
        (0..count).map(|_| self.next()).collect()
    }

    pub fn below(&self, bound: usize) -> usize {
        (self.next() % bound as u64) as usize
    }

    pub fn between(&self, least: usize, most: usize) -> usize {
        least + self.below(most - least + 1)
    }

    /// At most `most`, and small ones as often as large ones.
    pub fn size(&self, most: usize) -> usize {
        let bits = usize::BITS - most.leading_zeros();
        let shift = self.below(bits as usize + 1) as u32;
        self.below(most.saturating_add(1))
            .checked_shr(shift)
            .unwrap_or(0)
    }

    pub fn one_in(&self, chances: usize) -> bool {
        self.below(chances) == 0
    }

    pub fn pick<'a, T>(&self, from: &'a [T]) -> &'a T {
        &from[self.below(from.len())]
    }

    /// Numbers where things turn: small, near a power of two, near 2^64, and any.
    pub fn wild(&self) -> u64 {
        let near = self.below(5) as u64;
        match self.below(4) {
            0 => near,
            1 => (1u64 << self.below(64)).wrapping_add(near).wrapping_sub(2),
            2 => u64::MAX - near,
            _ => self.next(),
        }
    }

    /// `number` itself or close to it.
    pub fn near(&self, number: u64) -> u64 {
        number.wrapping_add(self.below(5) as u64).wrapping_sub(2)
    }

    pub fn shuffle<T>(&self, list: &mut [T]) {
        for at in (1..list.len()).rev() {
            list.swap(at, self.below(at + 1));
        }
    }
}
