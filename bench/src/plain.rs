//! A plain reader of document 01's segments, in safe Rust and without proofs: what a programmer would write who wants it fast.
//!
//! It makes every check of document 01 and gives the same answers, numbers and places. A segment in memory is read by its structure
//! (`whole`), one that comes in pieces by stages (`fed`); a time is looked up by a scan over the leaves (`lookup`).

pub mod boxes;
pub mod fed;
pub mod index;
pub mod lookup;
pub mod whole;

/// The most bytes that a segment has.
pub const LIMIT: usize = 268_435_456;

/// The most leaves that a list has, however many there is room for.
pub const MOST_LEAVES: usize = 4096;

/// The most levels of indexes, with the top one.
pub const MOST_LEVELS: usize = 4;

/// A leaf's record. All its numbers have 64 bits, as in the leaf table, so that both readers write and scan the same amount of memory.
#[derive(Clone, Copy, Debug, Default, PartialEq, Eq)]
pub struct Leaf {
    pub position: u64,
    pub size: u64,
    pub start: u64,
    pub duration: u64,
    pub sap: u64,
    pub decode: u64,
}

/// A number given back, and its place.
#[derive(Clone, Copy, Debug, PartialEq, Eq)]
pub struct Refusal {
    pub number: u32,
    pub place: u64,
}

/// What an accepted segment answers. The leaves themselves are in what was lent for them.
#[derive(Clone, Copy, Debug, PartialEq, Eq)]
pub struct Listing {
    pub leaves: usize,
    pub timescale: u32,
}

/// A refusal of the box, leaf or byte at a place.
pub(crate) fn refusal(number: u32, place: usize) -> Refusal {
    Refusal { number, place: place as u64 }
}
