//! How much is compared and from which seed, as the program's arguments say.

use second::random::Random;

const SEED: u64 = 0x5c0a_9197_9115_2026;
/// Random pairs of the usual run, besides the fixed ones.
pub const PAIRS: usize = 44_000;

pub struct Extent {
    pub seed: u64,
    pairs: usize,
}

impl Extent {
    /// The seed and the count of random pairs, each in decimal or, after 0x, in hexadecimal digits; the usual ones
    /// where there are none.
    pub fn of(words: &[String]) -> Option<Self> {
        let number = |word: &String| match word.strip_prefix("0x") {
            Some(digits) => u64::from_str_radix(digits, 16).ok(),
            None => word.parse().ok(),
        };
        let mut extent = Extent {
            seed: SEED,
            pairs: PAIRS,
        };
        if words.len() > 2 {
            return None;
        }
        if let Some(word) = words.first() {
            extent.seed = number(word).filter(|&seed| seed != 0)?;
        }
        if let Some(word) = words.get(1) {
            extent.pairs = number(word)? as usize;
        }
        Some(extent)
    }

    pub fn random(&self) -> Random {
        Random::from(self.seed)
    }

    /// As many, in proportion, as the usual run has `usual` of.
    pub fn count(&self, usual: usize) -> usize {
        (usual as u128 * self.pairs as u128).div_ceil(PAIRS as u128) as usize
    }

    /// Only a run as large as the usual one must have met everything.
    pub fn whole(&self) -> bool {
        self.pairs >= PAIRS
    }
}
