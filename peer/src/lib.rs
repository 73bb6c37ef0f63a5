//! The independent second program: what document 01 says of a segment, found by another method than the proved code's.
//!
//! The segment is built as a tree of data (`tree`, `index`, `segment`) from the bytes fed since start (`fed`). Every fault that the tree
//! shows is noted with the byte at which it is met (`faults`); the earliest one is given, and at one byte the lowest number. Work area,
//! leaf table and state follow from the tree and that answer (`reading`, `lent`, `state`). A time in seconds is an exact fraction, compared
//! by cross products (`time`, `natural`, `lookup`). `peer` holds the proved code's answers against all this, call by call.

pub mod calls;
pub mod compare;
pub mod faults;
pub mod fed;
pub mod handmade;
pub mod index;
pub mod lent;
pub mod listing;
pub mod lookup;
pub mod natural;
pub mod peer;
pub mod ranges;
pub mod reading;
pub mod segment;
pub mod state;
pub mod time;
pub mod tree;
