//! Random bytes to fill planes and pixels with.

use crate::random::Random;

/// The most bytes that a case takes at once: a plane of 4,096 by 4,096, or the pixels of half of one.
pub const LONGEST: usize = 1 << 25;

/// How many places there are from which bytes are taken.
const PLACES: u64 = 1 << 20;

/// Random bytes, always the same. A word says from which place on they are taken.
pub struct Noise(Vec<u8>);

impl Noise {
    /// Enough for so many at once.
    pub fn new(longest: usize) -> Self {
        let mut random = Random::new(1, "noise");
        let numbers = (longest + PLACES as usize).div_ceil(8);
        Self((0..numbers).flat_map(|_| random.number().to_le_bytes()).collect())
    }

    /// So many bytes, which `word` picks.
    pub fn bytes(&self, word: u64, length: usize) -> &[u8] {
        let place = (word % PLACES) as usize;
        &self.0[place..place + length]
    }

    /// Bytes for three planes, apart from each other.
    pub fn planes(&self, word: u64, lengths: [usize; 3]) -> [&[u8]; 3] {
        [0, 1, 2].map(|plane| self.bytes(word.wrapping_add(plane as u64 * 340_573), lengths[plane]))
    }

    /// Bytes for a map, apart from those: mostly 0, 1 and 2, each as often, and one of 16 is from 3 to 255.
    pub fn map(&self, word: u64, length: usize) -> Vec<u8> {
        let state = |byte: u8| match byte % 16 {
            0..=4 => 0,
            5..=9 => 1,
            10..=14 => 2,
            _ => (3 + u16::from(byte / 16) * 252 / 15) as u8,
        };
        self.bytes(word.wrapping_add(170_287), length).iter().map(|&byte| state(byte)).collect()
    }
}

#[cfg(test)]
mod tests {
    use super::*;

    #[test]
    fn a_map_has_all_states_and_some_that_are_none() {
        let map = Noise::new(1 << 16).map(0, 1 << 16);
        let many = |state: u8| map.iter().filter(|&&byte| byte == state).count();
        assert!([0, 1, 2].iter().all(|&state| many(state) > 20_000));
        assert!([3, 255].iter().all(|&state| many(state) > 200));
    }
}
