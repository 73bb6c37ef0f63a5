//! The time that a request asks for, exact: ticks, or the value of a double times the timescale (R20).
//!
//! A double is split by its bits, and its value times the timescale is held as a fraction. The fraction is never divided out: it is
//! compared with an edge of a leaf by cross products, in whole numbers of any length.

use crate::natural::Natural;

/// How many bits of a double are its fraction, and its exponent.
const FRACTION_BITS: u32 = 52;
const EXPONENT_BITS: u32 = 11;

/// The exponent of infinities and of what is not a number.
const NO_VALUE: u32 = (1 << EXPONENT_BITS) - 1;

/// A double whose exponent is this has its 53 bits as a whole number.
const WHOLE: u32 = 1075;

/// What is asked for: a tick count, or a number of seconds as the bits of a double.
#[derive(Clone, Copy, Debug, PartialEq, Eq)]
pub enum Request {
    Ticks(u64),
    Seconds(u64),
}

/// A mark keeps its page number and its seconds, which are the bits of a double.
#[derive(Clone, Copy, Debug, PartialEq, Eq)]
pub struct Mark {
    pub page: u32,
    pub seconds: u64,
}

/// A time in ticks as a fraction: `above` over 2 to the power of `below`.
#[derive(Clone, Debug)]
pub struct Time {
    above: Natural,
    below: u32,
}

impl Request {
    /// The time asked for, or nothing where 26 is given. Ticks ask nothing of the timescale.
    pub fn time(self, scale: u64) -> Option<Time> {
        match self {
            Request::Ticks(ticks) => Some(Time { above: Natural::from(ticks), below: 0 }),
            Request::Seconds(bits) => Time::of_seconds(bits, scale),
        }
    }
}

impl Time {
    /// Nothing for not a number, either infinity, or a value below zero. Negative zero is zero.
    fn of_seconds(bits: u64, scale: u64) -> Option<Time> {
        let double = Double::split(bits);
        if double.exponent == NO_VALUE || (double.negative && !double.is_zero()) {
            return None;
        }
        // The smallest exponent stands for the same power of two as the next, but without the bit before the fraction.
        let (digits, exponent) = match double.exponent {
            0 => (double.fraction, 1),
            exponent => (double.fraction | 1 << FRACTION_BITS, exponent),
        };
        let product = Natural::from(digits).times(scale);
        Some(Time { above: product.shifted(exponent.saturating_sub(WHOLE)), below: WHOLE.saturating_sub(exponent) })
    }

    /// Whether the time is before this many ticks. Both sides are multiplied by what the time is divided by.
    pub fn is_before(&self, ticks: &Natural) -> bool {
        self.above < ticks.shifted(self.below)
    }
}

/// The three fields of a double.
struct Double {
    negative: bool,
    exponent: u32,
    fraction: u64,
}

impl Double {
    fn split(bits: u64) -> Double {
        let exponent = (bits >> FRACTION_BITS) as u32 & NO_VALUE;
        Double { negative: bits >> (FRACTION_BITS + EXPONENT_BITS) == 1, exponent, fraction: bits & ((1 << FRACTION_BITS) - 1) }
    }

    fn is_zero(&self) -> bool {
        self.exponent == 0 && self.fraction == 0
    }
}

#[cfg(test)]
mod tests {
    use super::*;

    fn is_before(bits: u64, scale: u64, ticks: u64) -> bool {
        Request::Seconds(bits).time(scale).expect("it has a value").is_before(&Natural::from(ticks))
    }

    #[test]
    fn plain_values() {
        let five_and_a_quarter = 5.25f64.to_bits();
        assert!(is_before(five_and_a_quarter, 1, 6) && !is_before(five_and_a_quarter, 1, 5));
        assert!(is_before(five_and_a_quarter, 4, 22) && !is_before(five_and_a_quarter, 4, 21));
        assert!(is_before(0, 1, 1) && !is_before(0, 1, 0));
        assert!(is_before(1 << 63, 1, 1) && !is_before(1 << 63, 1, 0));
    }

    #[test]
    fn the_smallest_and_the_largest_values() {
        let largest_subnormal = (1 << 52) - 1;
        for bits in [1, 2, largest_subnormal, largest_subnormal + 1] {
            assert!(is_before(bits, u64::from(u32::MAX), 1) && !is_before(bits, 1, 0));
        }
        assert!(!is_before(f64::MAX.to_bits(), 1, u64::MAX));
        // 2^971 times 2^53 − 1, and the power of two above it.
        let largest = Request::Seconds(f64::MAX.to_bits()).time(1).expect("it has a value");
        assert!(largest.is_before(&Natural::from(1).shifted(1024)) && !largest.is_before(&Natural::from((1 << 53) - 1).shifted(971)));
    }

    /// One unit of the smallest value, times so many, is one tick exactly.
    #[test]
    fn the_smallest_value_is_exact() {
        let smallest = Time::of_seconds(1, 1).expect("it has a value");
        assert_eq!((smallest.above, smallest.below), (Natural::from(1), 1074));
        let normal = Time::of_seconds(1 << 52, 3).expect("it has a value");
        assert_eq!((normal.above, normal.below), (Natural::from(3 << 52), 1074));
        let whole = Time::of_seconds(2f64.powi(52).to_bits(), 3).expect("it has a value");
        assert_eq!((whole.above, whole.below), (Natural::from(3 << 52), 0));
        let even = Time::of_seconds(2f64.powi(53).to_bits() + 1, 1).expect("it has a value");
        assert_eq!((even.above, even.below), (Natural::from((1 << 53) + 2), 0));
    }

    fn has_value(bits: u64) -> bool {
        Request::Seconds(bits).time(1).is_some()
    }

    #[test]
    fn values_that_there_are_not() {
        let (sign, infinity, largest_subnormal) = (1 << 63, 0x7ff << 52, (1 << 52) - 1);
        let no_numbers = [infinity, infinity + 1, infinity | 1 << 51, u64::MAX >> 1];
        assert!(!no_numbers.iter().any(|bits| has_value(*bits) || has_value(sign | *bits)));
        let values = [1, largest_subnormal, 1 << 52, 1f64.to_bits(), infinity - 1];
        assert!(values.iter().all(|bits| has_value(*bits) && !has_value(sign | *bits)));
        assert!(has_value(0) && has_value(sign));
        assert!(Request::Ticks(u64::MAX).time(0).is_some());
    }
}
