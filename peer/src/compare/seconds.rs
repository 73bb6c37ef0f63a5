//! Seconds to look up: the bits of doubles around the edges of leaves, and at the edges of what a double can be. They are made by whole
//! numbers alone.

use super::random::Random;
use crate::calls::Call;
use crate::time::{Mark, Request};

/// The sign of a double, and how many bits its fraction has.
const SIGN: u64 = 1 << 63;
const FRACTION_BITS: u32 = 52;
/// The first bits past all values: those of infinity.
const INFINITY: u64 = 0x7ff << FRACTION_BITS;

/// The timescales that segments and states are made with; the last is any.
pub fn scale(random: &mut Random) -> u32 {
    let any = random.word().max(1);
    random.pick(&[1, 1000, 1000, 90_000, 90_000, u32::MAX, any])
}

/// A lookup by seconds, or now and then a mark, in leaves of that timescale that cover these times, each a start and a duration.
pub fn call(random: &mut Random, scale: u64, leaves: &[(u64, u64)]) -> Call {
    let seconds = any(random, scale, leaves);
    if random.chance(75) {
        return Call::Lookup(Request::Seconds(seconds));
    }
    let any = random.word();
    Call::Mark(Mark { page: random.pick(&[0, 1, 7, u32::MAX, any, any]), seconds })
}

/// The bits of some seconds.
fn any(random: &mut Random, scale: u64, leaves: &[(u64, u64)]) -> u64 {
    match random.below(100) {
        0..=59 if leaves.is_empty() => plain(random),
        0..=59 => {
            let leaf = random.pick(leaves);
            let ticks = ticks_of(random, leaf);
            near(random, not_above(ticks, scale))
        }
        60..=67 => {
            let ticks = near_a_width(random);
            near(random, not_above(ticks, scale))
        }
        68..=73 => plain(random),
        74..=79 => near_a_power(random),
        80..=84 => subnormal(random),
        85..=94 => refused(random),
        95 => SIGN,
        96 => random.pick(&[0, INFINITY - 1, INFINITY - 2]),
        97 => random.any() & !SIGN,
        _ => random.any(),
    }
}

/// Ticks where the leaf starts or ends, mostly, or within it; past 2^64 where it reaches so far.
fn ticks_of(random: &mut Random, (start, duration): (u64, u64)) -> u128 {
    let (from, end) = (u128::from(start), u128::from(start) + u128::from(duration));
    let within = from + u128::from(random.within(0..=duration));
    let past = match end.checked_sub(1 << 64) {
        Some(beyond) if beyond > 0 => end - 1 - u128::from(random.below(beyond as u64)),
        _ => end,
    };
    random.pick(&[from, from, from, end, end, end, within, past])
}

/// Ticks about the numbers at which a product no longer fits: 63, 64 and 65 bits, and the 85 bits of a fraction times a timescale.
fn near_a_width(random: &mut Random) -> u128 {
    let power = 1u128 << random.pick(&[53, 63, 64, 64, 65, 85]);
    let by = u128::from(random.below(3));
    random.pick(&[power, power + by, power - by])
}

/// Values that a player may well ask for: quarters, tenths, thousandths.
fn plain(random: &mut Random) -> u64 {
    let most = random.pick(&[100, 100_000, 1 << 40]);
    let (number, parts) = (random.below(most), random.pick(&[1, 2, 4, 8, 10, 1000]));
    not_above(u128::from(number), parts)
}

/// A power of two and its neighbours: 2^53, from which on all values are even, one with which the 53 bits are moved by up to two words of
/// 64 bits, or any.
fn near_a_power(random: &mut Random) -> u64 {
    let (any, by_words) = (random.within(1..=2046), random.within(1075 - 130..=1075 + 130));
    let exponent = random.pick(&[1023, 1023 + 52, 1023 + 53, by_words, by_words, any]);
    near(random, exponent << FRACTION_BITS)
}

/// The smallest, the largest, and any of the values below the normal ones.
fn subnormal(random: &mut Random) -> u64 {
    let largest = (1 << FRACTION_BITS) - 1;
    let any = random.within(1..=largest);
    random.pick(&[1, 2, largest, largest - 1, any, any])
}

/// What 26 is given for: values below zero, infinities, not a number of both signs and with any payload.
fn refused(random: &mut Random) -> u64 {
    let payload = random.within(1..=(1 << FRACTION_BITS) - 1);
    let payload = random.pick(&[1, 1 << (FRACTION_BITS - 1), (1 << FRACTION_BITS) - 1, payload, payload]);
    let sign = random.below(2) << 63;
    match random.below(6) {
        0 => sign | INFINITY,
        1 | 2 => sign | INFINITY | payload,
        3 => SIGN | subnormal(random),
        4 => SIGN | plain(random).max(1),
        _ => SIGN | random.within(1..=INFINITY - 1),
    }
}

/// The double with these bits, which is not below zero, or one that is one or two units away.
fn near(random: &mut Random, bits: u64) -> u64 {
    let by = random.pick(&[-2, -1, -1, 0, 0, 0, 1, 1, 2]);
    // Under zero the bits rise again, with the sign.
    bits.checked_add_signed(by).unwrap_or_else(|| SIGN | (by.unsigned_abs() - bits))
}

/// The bits of the largest double that is not above `number` divided by `parts`, which is not 0. The number has at most 95 bits.
pub fn not_above(number: u128, parts: u64) -> u64 {
    if number == 0 {
        return 0;
    }
    let parts = u128::from(parts);
    let width = |number: u128| (u128::BITS - number.leading_zeros()) as i32;
    // With this the quotient has 53 bits, or one more.
    let up = 53 + width(parts) - width(number);
    let quotient = if up >= 0 { (number << up) / parts } else { number / (parts << -up) };
    let spare = width(quotient) - 53;
    let digits = (quotient >> spare) as u64;
    // The bit before the fraction is not written, and counts one for the exponent.
    (((1074 - up + spare) as u64) << FRACTION_BITS) + digits
}

#[cfg(test)]
mod tests {
    use super::*;
    use crate::calls::Answer;
    use crate::compare::sessions;
    use crate::compare::stand_in::StandIn;
    use crate::natural::Natural;
    use std::collections::{BTreeMap, BTreeSet};

    #[test]
    fn quotients_are_the_largest_that_are_not_above() {
        assert_eq!(not_above(21, 4), 5.25f64.to_bits());
        assert_eq!(not_above(7000, 1000), 7f64.to_bits());
        // The double that is written 8.2 lies below it, and the one that is written 0.1 above it.
        assert_eq!(not_above(82, 10), 8.2f64.to_bits());
        assert_eq!(not_above(1, 10), 0.1f64.to_bits() - 1);
        assert_eq!(not_above(1 << 85, 1), 2f64.powi(85).to_bits());
        assert_eq!(not_above((1 << 85) - 1, 1), 2f64.powi(85).to_bits() - 1);
        assert_eq!(not_above(0, 7), 0);
    }

    #[test]
    fn edges_lie_between_neighbours() {
        let mut random = Random::new(13);
        for _ in 0..20_000 {
            let (number, scale) = (random.number().max(1), u64::from(scale(&mut random)));
            let time = |bits: u64| Request::Seconds(bits).time(scale).expect("it has a value");
            let is_before = |bits: u64| time(bits).is_before(&Natural::from(number));
            let bits = not_above(u128::from(number), scale);
            // Where the double is not before the edge it is the edge itself, and the one below it is before it.
            assert!(if is_before(bits) { !is_before(bits + 1) } else { is_before(bits - 1) }, "{number} {scale}");
        }
    }

    #[test]
    fn neighbours_go_through_zero() {
        let mut random = Random::new(14);
        let seen: BTreeSet<u64> = (0..500).map(|_| near(&mut random, 1)).collect();
        assert_eq!(seen.into_iter().collect::<Vec<u64>>(), [0, 1, 2, 3, SIGN | 1]);
    }

    /// What lookups by seconds and marks come to: the numbers, the timescales in which a leaf is found, the leaves found past 2^64, and
    /// the pages.
    #[derive(Debug, Default)]
    struct Came {
        numbers: [u64; 27],
        scales: BTreeMap<u64, u64>,
        past: u64,
        pages: BTreeMap<u64, u64>,
    }

    impl Came {
        fn count(&mut self, call: &Call, answer: &Answer) {
            let (bits, page) = match call {
                Call::Lookup(Request::Seconds(bits)) => (*bits, 0),
                Call::Mark(mark) => (mark.seconds, u64::from(mark.page)),
                _ => return,
            };
            self.numbers[answer.said[0] as usize] += 1;
            *self.pages.entry(page).or_default() += 1;
            if answer.said[0] == 0 {
                let scale = answer.state[4];
                *self.scales.entry(scale).or_default() += 1;
                let time = Request::Seconds(bits).time(scale).expect("a leaf was found");
                self.past += u64::from(!time.is_before(&Natural::from(1).shifted(64)));
            }
        }
    }

    #[test]
    fn seconds_come_to_each_number() {
        let mut came = Came::default();
        for number in (0..6000).filter(|number| *number != sessions::LONG_READING) {
            let mut peer = StandIn::default();
            let calls = sessions::sequence(15, number).lead;
            calls.iter().for_each(|call| peer.answer(call).iter().for_each(|answer| came.count(call, answer)));
        }
        assert!([0, 2, 22, 23, 24, 25, 26].iter().all(|number| came.numbers[*number] > 50), "{came:?}");
        assert!([1, 1000, 90_000, u64::from(u32::MAX)].iter().all(|scale| came.scales[scale] > 50), "{came:?}");
        assert!(came.scales.len() > 50 && came.past > 20 && came.pages.len() > 200, "{came:?}");
    }
}
