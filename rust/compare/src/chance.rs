//! Numbers by chance, the same ones in every run.

use std::env;

/// A stream of numbers (splitmix64).
pub struct Chance(u64);

impl Chance {
    /// The stream that `COMPARE_SEED` names, or else always the same.
    pub fn new() -> Chance {
        let seed = env::var("COMPARE_SEED").ok();
        Chance(seed.and_then(|seed| seed.parse().ok()).unwrap_or(1692))
    }

    pub fn number(&mut self) -> u64 {
        self.0 = self.0.wrapping_add(0x9e37_79b9_7f4a_7c15);
        let mut z = self.0;
        z = (z ^ (z >> 30)).wrapping_mul(0xbf58_476d_1ce4_e5b9);
        z = (z ^ (z >> 27)).wrapping_mul(0x94d0_49bb_1331_11eb);
        z ^ (z >> 31)
    }

    /// A number from 0 to `bound` - 1.
    pub fn below(&mut self, bound: usize) -> usize {
        (self.number() % bound as u64) as usize
    }

    /// True once in so many times.
    pub fn one_in(&mut self, times: usize) -> bool {
        self.below(times) == 0
    }

    pub fn byte(&mut self) -> u8 {
        self.number() as u8
    }

    pub fn word(&mut self) -> u16 {
        self.number() as u16
    }
}

impl Default for Chance {
    fn default() -> Chance {
        Chance::new()
    }
}
