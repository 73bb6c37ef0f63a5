//! The peer in the place of the proved program: an answer made of what it says.

use crate::calls::{Answer, Call, STATE_NUMBERS};
use crate::peer::{Peer, Said};
use crate::ranges;

/// The most bytes of a segment.
const LIMIT: u64 = super::states::LIMIT;

/// A peer that answers calls by itself.
#[derive(Default)]
pub struct StandIn {
    peer: Peer,
    /// The state as it was answered or lent last.
    state: Vec<u64>,
}

impl StandIn {
    /// Takes a command; gives the answer, if it has one.
    pub fn answer(&mut self, call: &Call) -> Option<Answer> {
        if !call.is_answered() {
            if let Call::LendState(numbers) = call {
                self.state.clone_from(numbers);
            }
            // Nothing is answered, so nothing can be wrong.
            let _ = self.peer.judge(call, None);
            return None;
        }
        let answer = match self.peer.says(call) {
            Some(said) => filled(said),
            None => self.refusal(),
        };
        // What is answered is the peer's own word; where it thinks otherwise, the comparison tells.
        let _ = self.peer.judge(call, Some(&answer));
        self.state.clone_from(&answer.state);
        Some(answer)
    }

    /// The state as it was answered or lent last.
    pub fn state(&self) -> &[u64] {
        &self.state
    }

    /// Something that a feed on a state made by hand may come to, where the peer cannot say what it does come to.
    fn refusal(&self) -> Answer {
        let count = self.state.get(1).copied().unwrap_or(0);
        let (number, place) = if count == LIMIT { (3, LIMIT) } else { (19, 0) };
        let mut state = vec![0; STATE_NUMBERS];
        state[..5].copy_from_slice(&[3, count + 1, self.state.get(2).copied().unwrap_or(0), number, place]);
        Answer { said: [number, place, 0, 0, 0, 0, 0, 0, 0], state, work: Vec::new(), table: Vec::new() }
    }
}

/// The answer that says this. What the peer leaves open is 0; where that is no state, one of these numbers is a tag, and that one is 1.
fn filled(said: Said) -> Answer {
    let zeros: Vec<u64> = said.state.iter().map(|number| number.unwrap_or(0)).collect();
    let with_one = |at: usize| {
        let mut numbers = zeros.clone();
        numbers[at] = 1;
        numbers
    };
    let open = (0..zeros.len()).filter(|at| said.state[*at].is_none());
    let found = if ranges::is_state(&zeros) { None } else { open.map(with_one).find(|numbers| ranges::is_state(numbers)) };
    Answer { said: said.said, state: found.unwrap_or(zeros), work: said.work, table: said.table }
}
