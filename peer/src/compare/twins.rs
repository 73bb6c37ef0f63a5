//! Where the same bytes are fed to the same state in other parts, they have to come to the same. The peer does not know what bytes come
//! to on a state made by hand; so this is asked of the answers alone.

use super::mirror::Mirror;
use crate::calls::{Answer, Call, SAID};
use std::collections::hash_map::{DefaultHasher, Entry};
use std::collections::HashMap;
use std::hash::{Hash, Hasher};

/// What was lent when a state was put in by hand, as a number that stands for it, and what was fed since.
type Fed = (u64, Vec<u8>);

/// What a feed came to.
#[derive(Clone, Debug, PartialEq, Eq)]
struct Outcome {
    said: [u64; SAID],
    state: Vec<u64>,
    lent: u64,
}

/// Follows the calls of a sequence.
#[derive(Default)]
pub struct Twins {
    mirror: Mirror,
    /// Whether a state was put in by hand; until then nothing needs to be followed but what is lent.
    by_hand: bool,
    fed: Option<Fed>,
    outcomes: HashMap<Fed, Outcome>,
}

impl Twins {
    /// Takes the next call with its answer; gives what is wrong, where the same bytes came to something else before.
    pub fn wrong(&mut self, call: &Call, answer: Option<&Answer>) -> Option<String> {
        let part = match call {
            Call::Feed(part) if self.by_hand => part,
            Call::Lookup(_) | Call::Mark(_) => return None,
            _ => {
                self.fed = None;
                self.by_hand = matches!(call, Call::LendState(_));
                self.mirror.see(call, answer);
                return None;
            }
        };
        let mut fed = self.fed.take().unwrap_or_else(|| (self.lent(), Vec::new()));
        self.mirror.see(call, answer);
        fed.1.extend(part);
        self.fed = Some(fed.clone());
        let outcome = Outcome { said: answer?.said, state: answer?.state.clone(), lent: self.lent() };
        match self.outcomes.entry(fed) {
            Entry::Vacant(place) => {
                place.insert(outcome);
                None
            }
            Entry::Occupied(before) if *before.get() == outcome => None,
            Entry::Occupied(before) => {
                let (count, before) = (before.key().1.len(), before.get());
                Some(format!("the same {count} bytes in other parts came to {:?}, state {:?}", before.said, before.state))
            }
        }
    }

    /// A number that stands for all that is lent now.
    fn lent(&mut self) -> u64 {
        let mut hasher = DefaultHasher::new();
        self.mirror.now().hash(&mut hasher);
        hasher.finish()
    }
}

#[cfg(test)]
mod tests {
    use super::*;

    fn answer(count: u64) -> Answer {
        Answer { said: [0, count, 0, 0, 0, 0, 0, 0, 0], state: vec![count], work: Vec::new(), table: Vec::new() }
    }

    #[test]
    fn the_same_bytes_have_to_come_to_the_same() {
        let calls = |last: u64| {
            let feed = |count: usize, to: u64| (Call::Feed(vec![7; count]), Some(answer(to)));
            let lend = (Call::LendState(vec![5]), None);
            [lend.clone(), feed(3, 8), lend, feed(1, 6), feed(2, last)]
        };
        let wrong = |last: u64| {
            let mut twins = Twins::default();
            calls(last).iter().find_map(|(call, answer)| twins.wrong(call, answer.as_ref()))
        };
        assert_eq!(wrong(8), None);
        assert!(wrong(9).is_some());
    }
}
