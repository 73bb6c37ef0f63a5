//! Whole numbers of any length, so that sums and products are exact.

use std::cmp::Ordering;

/// A whole number, 32 bits a place, the lowest place first. The highest place is not 0, so that equal numbers have equal places; 0 has
/// none.
#[derive(Clone, Debug, PartialEq, Eq)]
pub struct Natural {
    places: Vec<u32>,
}

impl Natural {
    fn of(mut places: Vec<u32>) -> Natural {
        let length = places.iter().rposition(|place| *place != 0).map_or(0, |last| last + 1);
        places.truncate(length);
        Natural { places }
    }

    pub fn plus(&self, other: &Natural) -> Natural {
        let at = |number: &Natural, place: usize| number.places.get(place).copied().map_or(0, u64::from);
        let (mut places, mut carried) = (Vec::new(), 0);
        for place in 0..self.places.len().max(other.places.len()) {
            carried += at(self, place) + at(other, place);
            places.push(carried as u32);
            carried >>= 32;
        }
        places.push(carried as u32);
        Natural::of(places)
    }

    pub fn times(&self, factor: u64) -> Natural {
        let (mut places, mut carried) = (Vec::new(), 0);
        for place in &self.places {
            carried += u128::from(*place) * u128::from(factor);
            places.push(carried as u32);
            carried >>= 32;
        }
        // What is carried out of the last place is below 2^64.
        places.extend([carried as u32, (carried >> 32) as u32]);
        Natural::of(places)
    }

    /// Times 2 to the power of `bits`.
    pub fn shifted(&self, bits: u32) -> Natural {
        let (mut places, mut carried) = (vec![0; bits as usize / 32], 0);
        for place in &self.places {
            carried |= u64::from(*place) << (bits % 32);
            places.push(carried as u32);
            carried >>= 32;
        }
        places.push(carried as u32);
        Natural::of(places)
    }
}

impl From<u64> for Natural {
    fn from(number: u64) -> Natural {
        Natural::of(vec![number as u32, (number >> 32) as u32])
    }
}

impl Ord for Natural {
    /// The longer one is greater; of two as long, the highest place that differs decides.
    fn cmp(&self, other: &Natural) -> Ordering {
        let from_the_top = || self.places.iter().rev().cmp(other.places.iter().rev());
        self.places.len().cmp(&other.places.len()).then_with(from_the_top)
    }
}

impl PartialOrd for Natural {
    fn partial_cmp(&self, other: &Natural) -> Option<Ordering> {
        Some(self.cmp(other))
    }
}

#[cfg(test)]
mod tests {
    use super::*;
    use crate::compare::random::Random;

    /// A number of at most 128 bits, made by sum and shift.
    fn natural(number: u128) -> Natural {
        Natural::from((number >> 64) as u64).shifted(64).plus(&Natural::from(number as u64))
    }

    #[test]
    fn each_number_is_written_in_one_way() {
        assert_eq!(Natural::from(0).places, []);
        assert_eq!(Natural::from(7).places, [7]);
        assert_eq!(Natural::from(u64::MAX).places, [u32::MAX, u32::MAX]);
        assert_eq!(Natural::from(1 << 32).places, [0, 1]);
        assert_eq!(Natural::from(0).shifted(1074), Natural::from(0));
        assert_eq!(Natural::from(u64::MAX).times(0), Natural::from(0));
        assert_eq!(Natural::from(0).plus(&Natural::from(0)), Natural::from(0));
    }

    #[test]
    fn carries_go_through_all_places() {
        let ones = natural(u128::MAX);
        assert_eq!(ones.plus(&Natural::from(1)).places, [0, 0, 0, 0, 1]);
        assert_eq!(Natural::from(1).plus(&ones).places, [0, 0, 0, 0, 1]);
        assert_eq!(ones.plus(&ones), ones.times(2));
        assert_eq!(ones.plus(&ones), ones.shifted(1));
        assert_eq!(ones.times(u64::MAX).places, [1, 0, u32::MAX, u32::MAX, u32::MAX - 1, u32::MAX]);
        assert_eq!(Natural::from(u64::MAX).times(u64::MAX), natural(u128::from(u64::MAX) * u128::from(u64::MAX)));
    }

    #[test]
    fn shifts_go_past_whole_places() {
        assert_eq!(Natural::from(1).shifted(31).places, [1 << 31]);
        assert_eq!(Natural::from(1).shifted(32).places, [0, 1]);
        assert_eq!(Natural::from(3).shifted(63).places, [0, 1 << 31, 1]);
        let far = Natural::from(u64::MAX).shifted(1074);
        assert_eq!(far.places.len(), 36);
        assert_eq!((0..1074).fold(Natural::from(u64::MAX), |number, _| number.times(2)), far);
    }

    #[test]
    fn the_order_is_that_of_the_numbers() {
        let rising = [natural(0), natural(1), natural(u128::from(u32::MAX)), natural(1 << 32), natural((1 << 32) + 1), natural(2 << 32)];
        assert!(rising.windows(2).all(|two| two[0] < two[1]));
        assert!(Natural::from(1).shifted(1000) > Natural::from(u64::MAX).shifted(935));
        assert!(Natural::from(1).shifted(1000) < Natural::from(u64::MAX).shifted(937));
    }

    #[test]
    fn short_numbers_are_as_the_machine_has_them() {
        let mut random = Random::new(11);
        for _ in 0..20_000 {
            let (one, other) = (random.number(), random.number());
            let (wide, bits) = (u128::from(one), random.below(64) as u32);
            assert_eq!(Natural::from(one).plus(&Natural::from(other)), natural(wide + u128::from(other)));
            assert_eq!(Natural::from(one).times(other), natural(wide * u128::from(other)));
            assert_eq!(Natural::from(one).shifted(bits), natural(wide << bits));
            assert_eq!(Natural::from(one).cmp(&Natural::from(other)), one.cmp(&other));
        }
    }

    #[test]
    fn products_go_over_sums() {
        let mut random = Random::new(12);
        for _ in 0..2000 {
            let (one, other) = (Natural::from(random.any()).shifted(random.below(1100) as u32), Natural::from(random.any()));
            let (factor, bits) = (random.number(), random.below(1100) as u32);
            assert_eq!(one.plus(&other).times(factor), one.times(factor).plus(&other.times(factor)));
            assert_eq!(one.plus(&other).shifted(bits), other.shifted(bits).plus(&one.shifted(bits)));
            assert_eq!(one.cmp(&other), one.times(7).shifted(bits).cmp(&other.times(7).shifted(bits)));
        }
    }
}
