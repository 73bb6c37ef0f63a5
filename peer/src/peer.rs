//! The peer: what document 01 says of each call, given all the calls before it.

use crate::calls::{Answer, Call, Run, PAGE, SAID, STATE_NUMBERS};
use crate::faults::Fault;
use crate::handmade::{self, Lent};
use crate::lent::{room, table_runs, work_runs, write, write_runs, Store, WORK};
use crate::lookup::{lookup, Found};
use crate::ranges::is_state;
use crate::reading::{End, Outcome, Reading};
use crate::state::{self, Numbers, ACCEPTED, ENDED, READING, REFUSED};
use crate::time::{Mark, Request};
use crate::tree::LIMIT;

/// The longest work area and table that can be lent: docs/BATCH.md.
const MOST_WORK: usize = 65_536;
const MOST_TABLE: usize = 32_768;

/// The place of the timescale in the state of an accepted finish: docs/STATE.md.
const SCALE: usize = 4;

/// What was expected and what came, in plain words.
#[derive(Clone, Debug)]
pub struct Difference {
    pub what: String,
}

/// The peer's own answer; `None` in the state where it cannot say the number.
#[derive(Clone, Debug, PartialEq, Eq)]
pub struct Said {
    pub said: [u64; SAID],
    pub state: Vec<Option<u64>>,
    pub work: Vec<Run<u8>>,
    pub table: Vec<Run<u64>>,
}

/// What is lent with the calls, and the reading that the state is of.
#[derive(Clone, Debug)]
pub struct Peer {
    state: Vec<u64>,
    work: Vec<u8>,
    table: Vec<u64>,
    /// The reading, if the state is one of a reading whose bytes are all known.
    reading: Option<Reading>,
}

impl Default for Peer {
    fn default() -> Peer {
        Peer::new()
    }
}

impl Peer {
    /// What is lent at first: docs/BATCH.md.
    pub fn new() -> Peer {
        Peer { state: vec![0; STATE_NUMBERS], work: vec![0; WORK], table: Vec::new(), reading: None }
    }

    /// Takes a command and, for one that is answered, the proved program's answer; tells whether that answer is right.
    ///
    /// Where the outcome of a feed on a reading state put in by hand cannot be known, what must hold is looked at, and the answer is taken
    /// over.
    pub fn judge(&mut self, call: &Call, answer: Option<&Answer>) -> Result<(), Difference> {
        let answer = match (call.is_answered(), answer) {
            (false, None) => {
                self.lend(call);
                return Ok(());
            }
            (true, Some(answer)) => answer,
            _ => return Err(Difference { what: format!("{}: an answer is missing, or one came that was not asked for", name(call)) }),
        };
        let wrong = match self.answer(call) {
            Some(said) => self.wrong(&said, answer),
            None => self.wrong_handmade(call, answer),
        };
        if let Some(wrong) = wrong {
            return Err(Difference { what: format!("{}: {wrong}", name(call)) });
        }
        self.state.clone_from(&answer.state);
        write_runs(&mut self.work, &answer.work);
        write_runs(&mut self.table, &answer.table);
        Ok(())
    }

    /// The peer's own answer, where it can know it. Nothing is changed by asking.
    pub fn says(&mut self, call: &Call) -> Option<Said> {
        self.clone().answer(call)
    }

    /// What is wrong with an answer to a call whose outcome is known.
    fn wrong(&self, said: &Said, answer: &Answer) -> Option<String> {
        let other = said.state.iter().zip(&answer.state).position(|(said, is)| said.is_some_and(|said| said != *is));
        if said.said != answer.said {
            Some(format!("expected {:?}, came {:?}", said.said, answer.said))
        } else if said.state.len() != answer.state.len() {
            Some(format!("expected a state of {} numbers, came {}", said.state.len(), answer.state.len()))
        } else if let Some(at) = other {
            let expected = said.state[at].unwrap_or(0);
            Some(format!("expected {expected} at place {at} of the state, came {}: {}", answer.state[at], shown(&said.state)))
        } else if answer.state != self.state && !is_state(&answer.state) {
            Some(format!("the state handed back is outside the ranges: {:?}", answer.state))
        } else if said.work != answer.work {
            Some(format!("expected in the work area {:?}, came {:?}", said.work, answer.work))
        } else if said.table != answer.table {
            Some(format!("expected in the table {:?}, came {:?}", said.table, answer.table))
        } else {
            None
        }
    }

    fn wrong_handmade(&self, call: &Call, answer: &Answer) -> Option<String> {
        match call {
            Call::Feed(part) => handmade::wrong(&self.lent(), part, answer),
            _ => None,
        }
    }

    /// Takes what is lent from now on. What docs/BATCH.md does not allow is left away: the program ends there.
    fn lend(&mut self, call: &Call) {
        match call {
            Call::LendState(numbers) => self.lend_state(numbers),
            Call::LendWork { bytes, each } if *bytes <= MOST_WORK => self.work = vec![*each; *bytes],
            Call::LendTable { numbers, each } if *numbers <= MOST_TABLE => self.table = vec![*each; *numbers],
            Call::WriteWork { at, bytes } => write(&mut self.work, *at, bytes),
            Call::WriteTable { at, numbers } => write(&mut self.table, *at, numbers),
            _ => {}
        }
    }

    /// A state that is lent again is that of the same reading. Of others only the state of start tells all the bytes before it: none.
    fn lend_state(&mut self, numbers: &[u64]) {
        if self.state != numbers {
            let brand = numbers.get(6).copied().unwrap_or(0);
            let is_start = numbers.len() == STATE_NUMBERS && state::start(brand).iter().zip(numbers).all(|(start, is)| *start == Some(*is));
            self.reading = is_start.then(|| Reading::new(brand));
            self.state = numbers.to_vec();
        }
    }

    /// The answer to a call, where it is known; the reading goes on by it, and the rest stays until the answer is taken.
    fn answer(&mut self, call: &Call) -> Option<Said> {
        match call {
            Call::Start { brand } => Some(self.start(u64::from(*brand))),
            Call::Feed(part) => self.feed(part),
            Call::Finish => Some(self.finish()),
            Call::Whole { brand, segment } => Some(self.whole(u64::from(*brand), segment)),
            Call::Lookup(request) => Some(self.lookup(*request)),
            Call::Mark(mark) => Some(self.resolve(*mark)),
            _ => None,
        }
    }

    fn start(&mut self, brand: u64) -> Said {
        if self.state.len() != STATE_NUMBERS {
            return self.unchanged(2, 0);
        }
        self.reading = Some(Reading::new(brand));
        plain(0, 0, state::start(brand))
    }

    /// Feed checks 1, 2, the kept refusal, 22, then bytes.
    fn feed(&mut self, part: &[u8]) -> Option<Said> {
        if self.work.len() < WORK {
            return Some(self.unchanged(1, 0));
        }
        if let Some(refused) = self.refused_at_call() {
            return Some(refused);
        }
        let (tag, count) = (self.state[0], self.state[1]);
        if part.is_empty() {
            return Some(self.unchanged(0, count));
        }
        if tag == ENDED {
            return Some(self.after_material(count));
        }
        let Some(mut reading) = self.reading.take() else {
            return self.decided(part[0]);
        };
        let outcome = reading.feed(part, &self.work, room(self.table.len()));
        let said = self.came_to(&reading, &outcome);
        if let End::Open = outcome.end {
            self.reading = Some(reading);
        }
        Some(said)
    }

    /// A feed on a reading state put in by hand, where its first byte decides what it comes to.
    fn decided(&self, byte: u8) -> Option<Said> {
        let lent = self.lent();
        let fault = handmade::next_fault(&lent)?;
        let stores: Vec<Store> = handmade::next_store(&lent, byte).into_iter().collect();
        let state = state::refused(fault.at + 1, self.state[2], &fault);
        Some(Said { work: work_runs(&self.work, &stores), ..plain(fault.number, fault.place, state) })
    }

    fn lent(&self) -> Lent<'_> {
        Lent { state: &self.state, work: &self.work, table: &self.table }
    }

    /// A byte after the material: 21, or 3 where it is byte 268,435,457, since 3 is lower (R2).
    fn after_material(&self, count: u64) -> Said {
        let number = if count == LIMIT { 3 } else { 21 };
        let fault = Fault { at: count, number, place: count };
        plain(number, count, state::refused(count + 1, self.state[2], &fault))
    }

    /// What a feed that came to this answers and changes.
    fn came_to(&self, reading: &Reading, outcome: &Outcome) -> Said {
        let (number, second, state) = match outcome.end {
            End::Open => (0, outcome.count, state::reading(reading)),
            End::Ended(top) => (0, outcome.count, state::ended(ENDED, outcome.count, reading.leaves, &top)),
            End::Refused(fault) => (fault.number, fault.place, state::refused(outcome.count, reading.leaves, &fault)),
        };
        let (work, table) = (work_runs(&self.work, &outcome.stores), table_runs(&self.table, &outcome.records));
        Said { work, table, ..plain(number, second, state) }
    }

    /// Finish checks 2, the kept refusal, 22, 20.
    fn finish(&mut self) -> Said {
        if let Some(refused) = self.refused_at_call() {
            return refused;
        }
        let (tag, count, leaves) = (self.state[0], self.state[1], self.state[2]);
        self.reading = None;
        if tag == READING {
            let fault = Fault { at: count, number: 20, place: count };
            return plain(20, count, state::refused(count, leaves, &fault));
        }
        let accepted = [vec![Some(ACCEPTED)], self.same_state()[1..].to_vec()].concat();
        plain(0, leaves, accepted)
    }

    /// What feed and finish check alike: 2, the kept refusal, 22.
    fn refused_at_call(&self) -> Option<Said> {
        if !is_state(&self.state) {
            return Some(self.unchanged(2, 0));
        }
        match self.state[0] {
            REFUSED => Some(self.unchanged(self.state[3], self.state[4])),
            ACCEPTED => Some(self.unchanged(22, 0)),
            _ => None,
        }
    }

    /// The whole reader: start, one feed, finish, ending at the first refusal. A short work area leaves the state of start (R14).
    fn whole(&mut self, brand: u64, segment: &[u8]) -> Said {
        if self.state.len() != STATE_NUMBERS {
            return self.unchanged(2, 0);
        }
        self.reading = None;
        if self.work.len() < WORK {
            self.reading = Some(Reading::new(brand));
            return plain(1, 0, state::start(brand));
        }
        let mut reading = Reading::new(brand);
        let outcome = reading.feed(segment, &self.work, room(self.table.len()));
        let fed = self.came_to(&reading, &outcome);
        let (count, leaves) = (outcome.count, reading.leaves);
        match outcome.end {
            End::Refused(_) => fed,
            End::Open => {
                let fault = Fault { at: count, number: 20, place: count };
                Said { work: fed.work, table: fed.table, ..plain(20, count, state::refused(count, leaves, &fault)) }
            }
            End::Ended(top) => Said { work: fed.work, table: fed.table, ..plain(0, leaves, state::ended(ACCEPTED, count, leaves, &top)) },
        }
    }

    /// Lookup checks 2, 22, 25, 26, then the records.
    fn lookup(&self, request: Request) -> Said {
        if !is_state(&self.state) {
            return self.unchanged(2, 0);
        }
        if self.state[0] != ACCEPTED {
            return self.unchanged(22, 0);
        }
        match lookup(&self.table, self.state[2], self.state[SCALE], request) {
            Found::Refused(number) => self.unchanged(number, 0),
            Found::Leaf { number, record } => {
                let mut found = self.unchanged(0, number);
                found.said[2..PAGE].copy_from_slice(&record);
                found
            }
        }
    }

    /// A mark is answered with its page and with what a lookup of its seconds gives, a refusal too (R20).
    fn resolve(&self, mark: Mark) -> Said {
        let mut resolved = self.lookup(Request::Seconds(mark.seconds));
        resolved.said[PAGE] = u64::from(mark.page);
        resolved
    }

    /// An answer that leaves everything as it is.
    fn unchanged(&self, number: u64, second: u64) -> Said {
        plain(number, second, self.same_state())
    }

    fn same_state(&self) -> Numbers {
        self.state.iter().copied().map(Some).collect()
    }
}

/// An answer that leaves the work area and the table as they are.
fn plain(number: u64, second: u64, state: Numbers) -> Said {
    Said { said: [number, second, 0, 0, 0, 0, 0, 0, 0], state, work: Vec::new(), table: Vec::new() }
}

/// The call, in a few words.
pub fn name(call: &Call) -> String {
    match call {
        Call::Start { .. } => "start".to_string(),
        Call::Feed(part) => format!("feed of {} bytes", part.len()),
        Call::Finish => "finish".to_string(),
        Call::Whole { segment, .. } => format!("whole reader of {} bytes", segment.len()),
        Call::Lookup(Request::Ticks(ticks)) => format!("lookup of {ticks} ticks"),
        Call::Lookup(Request::Seconds(bits)) => format!("lookup of seconds {bits:#018x}"),
        Call::Mark(mark) => format!("mark of page {}, seconds {:#018x}", mark.page, mark.seconds),
        _ => "what is lent".to_string(),
    }
}

/// The numbers, with a dot where none is said.
fn shown(numbers: &Numbers) -> String {
    let words: Vec<String> = numbers.iter().map(|number| number.map_or(".".to_string(), |number| number.to_string())).collect();
    words.join(" ")
}
