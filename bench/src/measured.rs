//! The functions that are measured. callgrind finds each by its name, and counts what is done between its entry and its return: nothing but
//! the calls, and for lookups a sum over their answers, so that none is left out.

use crate::library::Library;
use bench::plain::fed::{Fed, Levels};
use bench::plain::lookup::{by_seconds, by_ticks, Found};
use bench::plain::{whole::whole, Leaf, Listing, Refusal};
use std::hint::black_box;

pub const BRAND: [u8; 4] = *b"msdh";
const BRAND_NUMBER: u32 = u32::from_be_bytes(BRAND);

/// The names of all of them.
pub const NAMES: [&str; 8] = [
    "measured_whole_library",
    "measured_whole_plain",
    "measured_feed_library",
    "measured_feed_plain",
    "measured_ticks_library",
    "measured_ticks_plain",
    "measured_seconds_library",
    "measured_seconds_plain",
];

#[no_mangle]
#[inline(never)]
pub fn measured_whole_library(library: &mut Library, segment: &[u8]) -> u64 {
    library.whole(BRAND_NUMBER, segment)
}

#[no_mangle]
#[inline(never)]
pub fn measured_whole_plain(leaves: &mut [Leaf], segment: &[u8]) -> Result<Listing, Refusal> {
    whole(segment, BRAND, leaves)
}

#[no_mangle]
#[inline(never)]
pub fn measured_feed_library(library: &mut Library, segment: &[u8], piece: usize) -> u64 {
    library.start(BRAND_NUMBER);
    for piece in segment.chunks(piece) {
        let number = library.feed(piece);
        if number != 0 {
            return number;
        }
    }
    library.finish()
}

#[no_mangle]
#[inline(never)]
pub fn measured_feed_plain(leaves: &mut [Leaf], levels: &mut Levels, segment: &[u8], piece: usize) -> Result<Listing, Refusal> {
    let mut fed = Fed::new(BRAND, leaves, levels);
    for piece in segment.chunks(piece) {
        fed.feed(piece)?;
    }
    fed.finish()
}

/// The sum over the answers of all lookups, and the number of the last one's refusal.
#[no_mangle]
#[inline(never)]
pub fn measured_ticks_library(library: &mut Library, times: &[u64]) -> (u64, u64) {
    times.iter().fold((0, 0), |(sum, _), ticks| {
        let number = library.lookup_ticks(*ticks);
        (sum + number + library.answered(), number)
    })
}

/// The sum over the answers of all lookups, and the last one.
#[no_mangle]
#[inline(never)]
pub fn measured_ticks_plain(leaves: &[Leaf], times: &[u64]) -> (u64, Result<Found, u32>) {
    times.iter().fold((0, Err(0)), |(sum, _), ticks| {
        let found = by_ticks(black_box(leaves), *ticks);
        (sum + plain_number(&found), found)
    })
}

#[no_mangle]
#[inline(never)]
pub fn measured_seconds_library(library: &mut Library, times: &[f64]) -> (u64, u64) {
    times.iter().fold((0, 0), |(sum, _), seconds| {
        let number = library.lookup_seconds(*seconds);
        (sum + number + library.answered(), number)
    })
}

#[no_mangle]
#[inline(never)]
pub fn measured_seconds_plain(leaves: &[Leaf], timescale: u32, times: &[f64]) -> (u64, Result<Found, u32>) {
    times.iter().fold((0, Err(0)), |(sum, _), seconds| {
        let found = by_seconds(black_box(leaves), timescale, *seconds);
        (sum + plain_number(&found), found)
    })
}

/// A leaf's number, or that of the refusal; of a lookup that is refused the library answers the place 0 beside it.
fn plain_number(found: &Result<Found, u32>) -> u64 {
    match found {
        Ok(found) => found.number as u64,
        Err(number) => u64::from(*number),
    }
}
