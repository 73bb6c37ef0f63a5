//! What is told: how often each number came, calls and answers in words.

use crate::calls::{Answer, Call, Run, SAID};
use crate::peer::{self, Said};
use std::fmt::{Debug, Write};

/// The numbers that document 01 has, and 26 of request A1.
const NUMBERS: usize = 26;
/// How many bytes or numbers of a call are listed.
const LISTED: usize = 400;

/// How often each number was given back; 0 counts the calls that were not refused.
#[derive(Clone, Debug, Default)]
pub struct Tally {
    pub numbers: [u64; NUMBERS + 1],
    pub calls: u64,
    pub sequences: u64,
}

impl Tally {
    pub fn add(&mut self, answer: &Answer) {
        self.calls += 1;
        // A number above these is a difference, which the peer tells of.
        if let Some(times) = self.numbers.get_mut(answer.said[0] as usize) {
            *times += 1;
        }
    }

    pub fn add_all(&mut self, other: &Tally) {
        self.calls += other.calls;
        self.sequences += other.sequences;
        for (times, more) in self.numbers.iter_mut().zip(other.numbers) {
            *times += more;
        }
    }

    /// The numbers that never came.
    pub fn missing(&self) -> Vec<usize> {
        (1..=NUMBERS).filter(|number| self.numbers[*number] == 0).collect()
    }

    /// How often each number came, five a line.
    pub fn lines(&self) -> String {
        let mut lines = format!("not refused {}\n", self.numbers[0]);
        for five in (1..=NUMBERS).collect::<Vec<usize>>().chunks(5) {
            let told: Vec<String> = five.iter().map(|number| format!("{number:>2}: {:<7}", self.numbers[*number])).collect();
            lines += &format!("{}\n", told.join("  "));
        }
        lines
    }
}

/// A call in words.
pub fn call(call: &Call) -> String {
    match call {
        Call::Start { brand } => format!("start, brand {}", brand_name(*brand)),
        Call::Feed(part) => format!("feed of {}", bytes(part)),
        Call::Finish => "finish".to_string(),
        Call::Whole { brand, segment } => format!("whole reader, brand {}, segment of {}", brand_name(*brand), bytes(segment)),
        Call::Lookup(_) | Call::Mark(_) => peer::name(call),
        Call::LendState(state) => format!("lend the state {}", numbers(state)),
        Call::LendWork { bytes, each } => format!("lend a work area of {bytes} bytes, each {each}"),
        Call::LendTable { numbers, each } => format!("lend a leaf table of {numbers} numbers, each {each}"),
        Call::WriteWork { at, bytes: written } => format!("write into the work area at {at}: {}", bytes(written)),
        Call::WriteTable { at, numbers: written } => format!("write into the leaf table at {at}: {}", numbers(written)),
    }
}

/// An answer in words.
pub fn answer(answer: &Answer) -> String {
    let state = numbers(&answer.state);
    format!("{}; state {state}{}", said(&answer.said), changes(&answer.work, &answer.table))
}

/// What the peer says, in words; a number of the state that it cannot say is a dot.
pub fn said_by_peer(said_by: &Said) -> String {
    let end = said_by.state.iter().rposition(|number| *number != Some(0)).map_or(0, |last| last + 1);
    let told: Vec<String> = said_by.state[..end].iter().map(|number| number.map_or(".".to_string(), |number| number.to_string())).collect();
    format!("{}; state [{}]{}", said(&said_by.said), told.join(" "), changes(&said_by.work, &said_by.table))
}

fn said(said: &[u64; SAID]) -> String {
    let page = |page: &u64| if *page == 0 { String::new() } else { format!(", page {page}") };
    match said {
        [0, given, 0, 0, 0, 0, 0, 0, of] => format!("answered {given}{}", page(of)),
        [0, given, record @ .., of] => format!("answered {given} {record:?}{}", page(of)),
        [number, place, 0, 0, 0, 0, 0, 0, of] => format!("refused {number} {place}{}", page(of)),
        other => format!("{other:?}"),
    }
}

fn changes(work: &[Run<u8>], table: &[Run<u64>]) -> String {
    let mut told = String::new();
    runs(&mut told, "work area", work);
    runs(&mut told, "leaf table", table);
    told
}

fn runs<T: Debug>(told: &mut String, what: &str, runs: &[Run<T>]) {
    for run in runs.iter().take(20) {
        let listed = &run.now[..run.now.len().min(LISTED / 10)];
        let more = if listed.len() < run.now.len() { ".." } else { "" };
        let _ = write!(told, "; {what} from {}: {listed:?}{more}", run.at);
    }
}

fn brand_name(brand: u32) -> String {
    let four = brand.to_be_bytes();
    if four.iter().all(u8::is_ascii_alphanumeric) {
        String::from_utf8_lossy(&four).into_owned()
    } else {
        brand.to_string()
    }
}

fn bytes(bytes: &[u8]) -> String {
    let listed = &bytes[..bytes.len().min(LISTED)];
    let four: Vec<String> = listed.chunks(4).map(|four| four.iter().map(|byte| format!("{byte:02x}")).collect()).collect();
    let more = if listed.len() < bytes.len() { " .." } else { "" };
    format!("{} bytes {}{more}", bytes.len(), four.join(" "))
}

/// Numbers without the zeros at their end.
fn numbers(numbers: &[u64]) -> String {
    let end = numbers.iter().rposition(|number| *number != 0).map_or(0, |last| last + 1);
    let listed = &numbers[..end.min(LISTED)];
    let told: Vec<String> = listed.iter().map(u64::to_string).collect();
    format!("of {} numbers [{}]", numbers.len(), told.join(" "))
}
