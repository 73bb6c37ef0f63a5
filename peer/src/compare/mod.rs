//! The comparison of the proved program with the peer: segments and sequences of calls made at random, and what both say of them.

pub mod altered;
pub mod by_hand;
pub mod bytes;
pub mod child;
pub mod damage;
pub mod drive;
pub mod found;
pub mod grow;
pub mod judge;
pub mod long;
pub mod maker;
pub mod mirror;
pub mod options;
pub mod places;
pub mod random;
pub mod reading;
pub mod report;
pub mod seconds;
pub mod sequence;
pub mod sessions;
pub mod shape;
pub mod shrink;
pub mod spoil;
pub mod stand_in;
pub mod states;
pub mod twins;
