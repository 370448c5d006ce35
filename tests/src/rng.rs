//! A small generator of pseudo-random numbers (splitmix64), so that a seed repeats a case.

use crate::model::pack;

pub struct Rng {
    state: u64,
}

impl Rng {
    pub fn new(seed: u64) -> Self {
        Rng { state: seed }
    }

    pub fn draw(&mut self) -> u64 {
        self.state = self.state.wrapping_add(0x9e37_79b9_7f4a_7c15);
        let mut z = self.state;
        z = (z ^ (z >> 30)).wrapping_mul(0xbf58_476d_1ce4_e5b9);
        z = (z ^ (z >> 27)).wrapping_mul(0x94d0_49bb_1331_11eb);
        z ^ (z >> 31)
    }

    /// A number below `limit`, which is at least 1.
    pub fn below(&mut self, limit: usize) -> usize {
        ((u128::from(self.draw()) * limit as u128) >> 64) as usize
    }

    /// A number from `least` to `most`, both included.
    pub fn within(&mut self, least: usize, most: usize) -> usize {
        least + self.below(most - least + 1)
    }

    /// True once in `times`.
    pub fn once_in(&mut self, times: usize) -> bool {
        self.below(times) == 0
    }

    pub fn pick<T: Copy>(&mut self, choices: &[T]) -> T {
        choices[self.below(choices.len())]
    }

    /// Puts the items into another order.
    pub fn shuffle<T>(&mut self, items: &mut [T]) {
        for last in (1..items.len()).rev() {
            items.swap(last, self.below(last + 1));
        }
    }

    /// So many bits, one byte each.
    pub fn bits(&mut self, count: usize) -> Vec<u8> {
        let mut bits = Vec::with_capacity(count);
        while bits.len() < count {
            let word = self.draw();
            let more = (count - bits.len()).min(64);
            bits.extend((0..more).map(|at| (word >> at & 1) as u8));
        }
        bits
    }

    /// A packed tape of so many bits.
    pub fn tape(&mut self, bits: usize) -> Vec<u8> {
        pack(&self.bits(bits))
    }
}
