//! A sequence of calls. It begins with commands that make known what is lent, so that it hangs on no sequence before it.

use crate::calls::Call;
use std::iter;

/// Calls in order: `lead`, the same call so many times, `tail`. The one in the middle is held once, however often it is made.
#[derive(Clone, Debug, Default)]
pub struct Sequence {
    pub lead: Vec<Call>,
    pub repeated: Option<(Call, usize)>,
    pub tail: Vec<Call>,
    /// Where a state was made and the ranges say of it what was not meant.
    pub doubt: Option<String>,
}

impl Sequence {
    pub fn calls(&self) -> impl Iterator<Item = &Call> {
        let repeated = self.repeated.iter().flat_map(|(call, times)| iter::repeat_n(call, *times));
        self.lead.iter().chain(repeated).chain(&self.tail)
    }

    /// How many of its calls are answered.
    pub fn answers(&self) -> u64 {
        let count = |calls: &[Call]| calls.iter().filter(|call| call.is_answered()).count() as u64;
        let repeated = self.repeated.as_ref().map_or(0, |(_, times)| *times as u64);
        count(&self.lead) + repeated + count(&self.tail)
    }

    /// How many bytes its parts and segments have.
    pub fn bytes(&self) -> usize {
        let length = |call: &Call| match call {
            Call::Feed(part) | Call::Whole { segment: part, .. } => part.len(),
            _ => 0,
        };
        self.calls().map(length).sum()
    }
}
