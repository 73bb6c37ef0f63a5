//! The lookup in a leaf table of any contents.

use crate::lent::RECORD;
use crate::natural::Natural;
use crate::time::{Request, Time};

/// The places of start and duration in a record.
const START: usize = 2;
const DURATION: usize = 3;

/// What a lookup answers: the leaf's number and record, or a refusal with place 0.
#[derive(Clone, Copy, Debug, PartialEq, Eq)]
pub enum Found {
    Leaf { number: u64, record: [u64; RECORD] },
    Refused(u64),
}

/// The lowest-numbered record that covers the time asked for (rule 7), over the records of so many leaves; the order is 25, 26, then the
/// leaf, 23 or 24 (R16, R20).
pub fn lookup(table: &[u64], leaves: u64, scale: u64, request: Request) -> Found {
    let needed = usize::try_from(leaves).ok().and_then(|leaves| leaves.checked_mul(RECORD));
    let Some(listed) = needed.and_then(|needed| table.get(..needed)) else {
        return Found::Refused(25);
    };
    let Some(time) = request.time(scale) else {
        return Found::Refused(26);
    };
    let covering = (1..).zip(listed.chunks_exact(RECORD)).find(|(_, record)| covers(record, &time));
    match (covering, listed.get(START)) {
        (Some((number, record)), _) => Found::Leaf { number, record: std::array::from_fn(|k| record[k]) },
        (None, Some(start)) if time.is_before(&Natural::from(*start)) => Found::Refused(23),
        _ => Found::Refused(24),
    }
}

/// Whether start ≤ time < start + duration, the sum exact past 64 bits.
fn covers(record: &[u64], time: &Time) -> bool {
    let (start, duration) = (Natural::from(record[START]), Natural::from(record[DURATION]));
    !time.is_before(&start) && time.is_before(&start.plus(&duration))
}
