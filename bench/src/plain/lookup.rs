//! The leaf that covers a time, by a scan over the leaves. A list that was not accepted, or is shorter than it says, cannot be lent here;
//! so that 2, 22 and 25 are not given.

use super::Leaf;

/// The leaf's number, from 1 on, and its record.
#[derive(Clone, Copy, Debug, PartialEq, Eq)]
pub struct Found {
    pub number: usize,
    pub leaf: Leaf,
}

/// The leaf that covers a time in ticks, or the number of the refusal.
pub fn by_ticks(leaves: &[Leaf], ticks: u64) -> Result<Found, u32> {
    let covers = |leaf: &Leaf| leaf.start <= ticks && ticks - leaf.start < leaf.duration;
    found(leaves, leaves.iter().position(covers), u128::from(ticks))
}

/// The leaf that covers a time in seconds, taken at its exact value.
pub fn by_seconds(leaves: &[Leaf], timescale: u32, seconds: f64) -> Result<Found, u32> {
    let ticks = whole_ticks(seconds, timescale).ok_or(26u32)?;
    if let Ok(ticks) = u64::try_from(ticks) {
        return by_ticks(leaves, ticks);
    }
    // Every start is below such a time, so that only the ends are left to compare.
    let covers = |leaf: &Leaf| ticks < u128::from(leaf.start) + u128::from(leaf.duration);
    found(leaves, leaves.iter().position(covers), ticks)
}

fn found(leaves: &[Leaf], index: Option<usize>, ticks: u128) -> Result<Found, u32> {
    match (index, leaves.first()) {
        (Some(index), _) => Ok(Found { number: index + 1, leaf: leaves[index] }),
        (None, Some(first)) if ticks < u128::from(first.start) => Err(23),
        (None, _) => Err(24),
    }
}

/// The whole ticks of a time in seconds; None where it is no time. Edges are whole ticks, so the fraction decides nothing. A time of 2^128
/// ticks or more is past every edge, and so is the number that stands for it.
fn whole_ticks(seconds: f64, timescale: u32) -> Option<u128> {
    if seconds == 0.0 {
        return Some(0);
    }
    if !seconds.is_finite() || seconds < 0.0 {
        return None;
    }
    let (exponent, fraction) = (seconds.to_bits() >> 52, seconds.to_bits() & ((1 << 52) - 1));
    // A subnormal has the exponent of the smallest normal double, and no bit before its fraction.
    let (exponent, fraction) = if exponent == 0 { (1, fraction) } else { (exponent, fraction | 1 << 52) };
    let product = u128::from(fraction) * u128::from(timescale);
    Some(match exponent as i32 - 1075 {
        shift @ 0.. => product.checked_shl(shift as u32).filter(|ticks| ticks >> shift == product).unwrap_or(u128::MAX),
        shift => product.checked_shr(shift.unsigned_abs()).unwrap_or(0),
    })
}
