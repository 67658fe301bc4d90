//! A small deterministic source of random numbers (splitmix64), so that every
//! case of a test can be made again from the seed and the case's number.

use std::env;

/// The seed where the environment variable SEED names none.
const USUAL_SEED: u64 = 20_001;

/// The seed of this run.
pub fn seed() -> u64 {
    number_from_environment("SEED", USUAL_SEED)
}

/// The number in an environment variable, or `usual` where it is not set.
pub fn number_from_environment(name: &str, usual: u64) -> u64 {
    match env::var(name) {
        Ok(written) => match written.trim().parse() {
            Ok(number) => number,
            Err(_) => panic!("{name} must be a whole number below 2 to the 64, not {written:?}"),
        },
        Err(_) => usual,
    }
}

pub struct Random {
    state: u64,
}

impl Random {
    pub fn new(seed: u64) -> Random {
        Random { state: seed }
    }

    /// The source for one case of a run. The case's number goes in through the
    /// mixing, as neighbouring states would give the same numbers one step apart.
    pub fn of_case(seed: u64, case: u64) -> Random {
        let mixed = Random::new(seed).bits();
        Random::new(Random::new(mixed ^ case).bits())
    }

    /// Any 64 bits.
    pub fn bits(&mut self) -> u64 {
        self.state = self.state.wrapping_add(0x9e37_79b9_7f4a_7c15);
        let mut mixed = self.state;
        mixed = (mixed ^ (mixed >> 30)).wrapping_mul(0xbf58_476d_1ce4_e5b9);
        mixed = (mixed ^ (mixed >> 27)).wrapping_mul(0x94d0_49bb_1331_11eb);
        mixed ^ (mixed >> 31)
    }

    /// A number from 0 to `bound` - 1. Nothing is drawn where that is 0 alone.
    pub fn below(&mut self, bound: usize) -> usize {
        assert!(bound > 0);
        if bound == 1 {
            return 0;
        }
        ((u128::from(self.bits()) * bound as u128) >> 64) as usize
    }

    /// A number from `low` to `high`, both included.
    pub fn between(&mut self, low: i64, high: i64) -> i64 {
        low + self.below((high - low + 1) as usize) as i64
    }

    /// True in one of `n` cases.
    pub fn one_in(&mut self, n: usize) -> bool {
        self.below(n) == 0
    }

    /// One of the items.
    pub fn pick<T: Copy>(&mut self, items: &[T]) -> T {
        items[self.below(items.len())]
    }
}
