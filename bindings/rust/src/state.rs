//! The state of a reading.

use crate::{sys, STATE_NUMBERS};
use std::fmt;

/// How far a reading has come: 57 numbers, to be kept and handed back as they are.
///
/// What they say stands in docs/STATE.md. Numbers that are no state do no harm: each call that is given them is refused with
/// [`Reason::NoState`](crate::Reason::NoState).
///
/// ```
/// use mazurlot::{State, MSDH};
///
/// let kept: [u64; 57] = *State::start(MSDH).numbers();
/// assert_eq!(State::from(kept), State::start(MSDH));
/// ```
#[derive(Clone, PartialEq, Eq)]
pub struct State([u64; STATE_NUMBERS]);

/// Where numbers of an accepted state stand, as the header names them.
const LEAVES: usize = 2;
const TIMESCALE: usize = 4;

impl State {
    /// The state before a segment's first byte. The brand wanted is the one that the segment's `styp` has to list.
    pub fn start(brand: [u8; 4]) -> State {
        let mut state = State::none();
        // A start refuses only a state that has not 57 numbers.
        sys::start(u32::from_be_bytes(brand), &mut state.0);
        state
    }

    /// The numbers, to be kept.
    pub fn numbers(&self) -> &[u64; STATE_NUMBERS] {
        &self.0
    }

    /// Zeros, which are no state: for a call that writes one.
    pub(crate) fn none() -> State {
        State([0; STATE_NUMBERS])
    }

    pub(crate) fn numbers_mut(&mut self) -> &mut [u64; STATE_NUMBERS] {
        &mut self.0
    }

    /// How many leaves are listed. It is at most 4,096.
    pub(crate) fn leaves(&self) -> usize {
        self.0[LEAVES] as usize
    }

    /// The timescale of an accepted state, which has 32 bits.
    pub(crate) fn timescale(&self) -> u32 {
        self.0[TIMESCALE] as u32
    }
}

impl From<[u64; STATE_NUMBERS]> for State {
    fn from(numbers: [u64; STATE_NUMBERS]) -> State {
        State(numbers)
    }
}

/// The numbers mean nothing to a reader of a log, so they are left out.
impl fmt::Debug for State {
    fn fmt(&self, f: &mut fmt::Formatter<'_>) -> fmt::Result {
        f.debug_struct("State").finish_non_exhaustive()
    }
}
