//! A small generator of random numbers. The same seed gives the same numbers everywhere, so that a run can be made again.

use std::ops::RangeInclusive;

/// The sequence of numbers that a seed stands for (SplitMix64).
#[derive(Clone, Debug)]
pub struct Random {
    state: u64,
}

impl Random {
    pub fn new(seed: u64) -> Random {
        Random { state: seed }
    }

    /// The numbers of one sequence of calls, which hang on the run's seed and on the sequence's number alone.
    pub fn of_sequence(seed: u64, number: u64) -> Random {
        let mut of_run = Random::new(seed);
        let mixed = of_run.any() ^ number.wrapping_mul(0xd134_2543_de82_ef95);
        Random::new(Random::new(mixed).any())
    }

    pub fn any(&mut self) -> u64 {
        self.state = self.state.wrapping_add(0x9e37_79b9_7f4a_7c15);
        let mut z = self.state;
        z = (z ^ (z >> 30)).wrapping_mul(0xbf58_476d_1ce4_e5b9);
        z = (z ^ (z >> 27)).wrapping_mul(0x94d0_49bb_1331_11eb);
        z ^ (z >> 31)
    }

    /// A number below `bound`, which is not 0. The small bias of the remainder does not matter here.
    pub fn below(&mut self, bound: u64) -> u64 {
        self.any() % bound
    }

    pub fn index(&mut self, length: usize) -> usize {
        self.below(length as u64) as usize
    }

    pub fn within(&mut self, range: RangeInclusive<u64>) -> u64 {
        let (low, high) = (*range.start(), *range.end());
        match (high - low).checked_add(1) {
            Some(span) => low + self.below(span),
            None => self.any(),
        }
    }

    /// Like `within`, for lengths and counts.
    pub fn count(&mut self, range: RangeInclusive<usize>) -> usize {
        self.within(*range.start() as u64..=*range.end() as u64) as usize
    }

    pub fn chance(&mut self, percent: u64) -> bool {
        self.below(100) < percent
    }

    pub fn pick<T: Clone>(&mut self, from: &[T]) -> T {
        from[self.index(from.len())].clone()
    }

    /// One of several, each as often as its weight says.
    pub fn weighted<T: Clone>(&mut self, from: &[(u64, T)]) -> T {
        let mut left = self.below(from.iter().map(|(weight, _)| weight).sum());
        for (weight, what) in from {
            if left < *weight {
                return what.clone();
            }
            left -= weight;
        }
        unreachable!("the weights sum to more than was drawn")
    }

    pub fn byte(&mut self) -> u8 {
        self.any() as u8
    }

    pub fn bytes(&mut self, count: usize) -> Vec<u8> {
        (0..count).map(|_| self.byte()).collect()
    }

    pub fn word(&mut self) -> u32 {
        self.any() as u32
    }

    /// A number of 64 bits: an edge, a small one, one near the top, or any.
    pub fn number(&mut self) -> u64 {
        match self.below(6) {
            0 => self.pick(&[0, 1, u64::MAX, u64::MAX - 1, 1 << 63, 1 << 32, (1 << 32) - 1, (1 << 31) - 1]),
            1 => self.below(100),
            2 => self.below(100_000),
            3 => u64::MAX - self.below(100_000),
            4 => self.any() >> self.below(64),
            _ => self.any(),
        }
    }
}

#[cfg(test)]
mod tests {
    use super::*;

    #[test]
    fn the_same_seed_gives_the_same_numbers() {
        let (mut one, mut other) = (Random::of_sequence(7, 3), Random::of_sequence(7, 3));
        assert!((0..100).all(|_| one.any() == other.any()));
        assert_ne!(Random::of_sequence(7, 3).any(), Random::of_sequence(7, 4).any());
        assert_ne!(Random::of_sequence(7, 3).any(), Random::of_sequence(8, 3).any());
    }

    #[test]
    fn numbers_stay_within_their_range() {
        let mut random = Random::new(1);
        assert!((0..1000).all(|_| (3..=5).contains(&random.within(3..=5))));
        assert!((0..1000).all(|_| random.weighted(&[(1, 7), (0, 8), (3, 9)]) != 8));
        random.within(0..=u64::MAX);
    }
}
