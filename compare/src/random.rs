//! A small pseudo-random generator (splitmix64): the same seed gives the same cases.

use std::env;

/// The environment variable that gives another seed.
pub const SEED_VARIABLE: &str = "COMPARE_SEED";

const USUAL_SEED: u64 = 20_151_117;

pub struct Random {
    state: u64,
}

/// The seed of this run. It is fixed unless asked otherwise, so that two runs try the same cases.
pub fn seed() -> u64 {
    env::var(SEED_VARIABLE).map_or(USUAL_SEED, |text| {
        text.parse().expect("COMPARE_SEED is a decimal number")
    })
}

impl Random {
    pub fn new(seed: u64) -> Self {
        Random { state: seed }
    }

    pub fn number(&mut self) -> u64 {
        self.state = self.state.wrapping_add(0x9e37_79b9_7f4a_7c15);
        let mut z = self.state;
        z = (z ^ (z >> 30)).wrapping_mul(0xbf58_476d_1ce4_e5b9);
        z = (z ^ (z >> 27)).wrapping_mul(0x94d0_49bb_1331_11eb);
        z ^ (z >> 31)
    }

    /// A number from `least` to `most`, both included.
    pub fn between(&mut self, least: u64, most: u64) -> u64 {
        least + self.number() % (most - least + 1)
    }

    pub fn pick<'a, T>(&mut self, choices: &'a [T]) -> &'a T {
        &choices[self.index(choices.len())]
    }

    /// An index below `length`.
    pub fn index(&mut self, length: usize) -> usize {
        (self.number() % length as u64) as usize
    }

    pub fn bytes(&mut self, length: usize) -> Vec<u8> {
        (0..length).map(|_| self.number() as u8).collect()
    }
}
