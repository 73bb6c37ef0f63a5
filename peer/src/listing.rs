//! What the listing program prints of a segment.

use crate::lent::WORK;
use crate::reading::{End, Reading};

/// The brand wanted.
const BRAND: &[u8; 4] = b"msdh";

/// How many leaves room is lent for.
const ROOM: u64 = 256;

/// The listing of a whole segment: the leaves, or the refusal (R19).
pub fn listing(segment: &[u8]) -> String {
    let mut reading = Reading::new(u64::from(u32::from_be_bytes(*BRAND)));
    let outcome = reading.feed(segment, &[0; WORK], ROOM);
    match outcome.end {
        End::Refused(fault) => format!("refused {} {}\n", fault.number, fault.place),
        End::Open => format!("refused 20 {}\n", outcome.count),
        End::Ended(_) => {
            let lines = outcome.records.iter().map(|record| {
                let numbers = record.numbers.map(|number| number.to_string());
                format!("{} {}\n", record.number, numbers.join(" "))
            });
            format!("ok {}\n{}", outcome.records.len(), lines.collect::<String>())
        }
    }
}
