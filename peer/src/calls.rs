//! Calls and answers in the binary form of docs/BATCH.md.

use crate::time::{Mark, Request};

/// How many numbers a state has.
pub const STATE_NUMBERS: usize = 57;

/// How many numbers say what a call answered, and the place of the page among them.
pub const SAID: usize = 9;
pub const PAGE: usize = 8;

/// A command of docs/BATCH.md: a call, or something lent from now on.
#[derive(Clone, Debug, PartialEq, Eq)]
pub enum Call {
    Start { brand: u32 },
    Feed(Vec<u8>),
    Finish,
    Whole { brand: u32, segment: Vec<u8> },
    Lookup(Request),
    Mark(Mark),
    LendState(Vec<u64>),
    LendWork { bytes: usize, each: u8 },
    LendTable { numbers: usize, each: u64 },
    WriteWork { at: usize, bytes: Vec<u8> },
    WriteTable { at: usize, numbers: Vec<u64> },
}

/// A run of bytes or numbers that a call changed: where it starts, and what stands there now.
#[derive(Clone, Debug, PartialEq, Eq)]
pub struct Run<T> {
    pub at: usize,
    pub now: Vec<T>,
}

/// What the program writes of a call.
#[derive(Clone, Debug, PartialEq, Eq)]
pub struct Answer {
    /// The refusal's number or 0; the place or what is answered; the record of the leaf that was found; the page of a mark.
    pub said: [u64; SAID],
    pub state: Vec<u64>,
    pub work: Vec<Run<u8>>,
    pub table: Vec<Run<u64>>,
}

impl Call {
    /// Whether the program answers it; what is only lent is not answered.
    pub fn is_answered(&self) -> bool {
        let is_lookup = matches!(self, Call::Lookup(_) | Call::Mark(_));
        is_lookup || matches!(self, Call::Start { .. } | Call::Feed(_) | Call::Finish | Call::Whole { .. })
    }

    /// Writes the command behind what `out` holds.
    pub fn write(&self, out: &mut Vec<u8>) {
        match self {
            Call::Start { brand } => head(out, 1, u64::from(*brand), 0),
            Call::Feed(part) => {
                head(out, 2, part.len() as u64, 0);
                out.extend_from_slice(part);
            }
            Call::Finish => head(out, 3, 0, 0),
            Call::Whole { brand, segment } => {
                head(out, 4, u64::from(*brand), segment.len() as u64);
                out.extend_from_slice(segment);
            }
            Call::Lookup(Request::Ticks(ticks)) => head(out, 5, *ticks, 0),
            Call::Lookup(Request::Seconds(bits)) => head(out, 6, *bits, 0),
            Call::Mark(mark) => head(out, 7, mark.seconds, u64::from(mark.page)),
            Call::LendState(numbers) => {
                head(out, 11, numbers.len() as u64, 0);
                put_all(out, numbers);
            }
            Call::LendWork { bytes, each } => head(out, 12, *bytes as u64, u64::from(*each)),
            Call::LendTable { numbers, each } => head(out, 13, *numbers as u64, *each),
            Call::WriteWork { at, bytes } => {
                head(out, 14, *at as u64, bytes.len() as u64);
                out.extend_from_slice(bytes);
            }
            Call::WriteTable { at, numbers } => {
                head(out, 15, *at as u64, numbers.len() as u64);
                put_all(out, numbers);
            }
        }
    }

    /// The next command, or `None` where the bytes end or are not of this form.
    pub fn read(from: &mut Source) -> Option<Call> {
        let (kind, a, b) = (from.number()?, from.number()?, from.number()?);
        Some(match kind {
            1 => Call::Start { brand: a as u32 },
            2 => Call::Feed(from.bytes(a)?),
            3 => Call::Finish,
            4 => Call::Whole { brand: a as u32, segment: from.bytes(b)? },
            5 => Call::Lookup(Request::Ticks(a)),
            6 => Call::Lookup(Request::Seconds(a)),
            7 => Call::Mark(Mark { page: b as u32, seconds: a }),
            11 => Call::LendState(from.numbers(a)?),
            12 => Call::LendWork { bytes: usize::try_from(a).ok()?, each: b as u8 },
            13 => Call::LendTable { numbers: usize::try_from(a).ok()?, each: b },
            14 => Call::WriteWork { at: usize::try_from(a).ok()?, bytes: from.bytes(b)? },
            15 => Call::WriteTable { at: usize::try_from(a).ok()?, numbers: from.numbers(b)? },
            _ => return None,
        })
    }
}

impl Answer {
    /// Writes the answer behind what `out` holds.
    pub fn write(&self, out: &mut Vec<u8>) {
        put_all(out, &self.said);
        put(out, self.state.len() as u64);
        put_all(out, &self.state);
        for run in &self.work {
            put(out, run.at as u64);
            put(out, run.now.len() as u64);
            out.extend_from_slice(&run.now);
        }
        put_all(out, &[0, 0]);
        for run in &self.table {
            put(out, run.at as u64);
            put(out, run.now.len() as u64);
            put_all(out, &run.now);
        }
        put_all(out, &[0, 0]);
    }

    /// The next answer, or `None` where the bytes end.
    pub fn read(from: &mut Source) -> Option<Answer> {
        let said = from.numbers(SAID as u64)?.try_into().ok()?;
        let count = from.number()?;
        let state = from.numbers(count)?;
        let work = from.runs(Source::bytes)?;
        let table = from.runs(Source::numbers)?;
        Some(Answer { said, state, work, table })
    }
}

/// Bytes that are read from the front.
pub struct Source<'a> {
    rest: &'a [u8],
}

impl<'a> Source<'a> {
    pub fn new(rest: &'a [u8]) -> Source<'a> {
        Source { rest }
    }

    pub fn is_empty(&self) -> bool {
        self.rest.is_empty()
    }

    /// How many bytes are left.
    pub fn left(&self) -> usize {
        self.rest.len()
    }

    fn take(&mut self, count: u64) -> Option<&'a [u8]> {
        let count = usize::try_from(count).ok()?;
        let taken = self.rest.get(..count)?;
        self.rest = &self.rest[count..];
        Some(taken)
    }

    fn bytes(&mut self, count: u64) -> Option<Vec<u8>> {
        Some(self.take(count)?.to_vec())
    }

    fn number(&mut self) -> Option<u64> {
        Some(u64::from_be_bytes(self.take(8)?.try_into().ok()?))
    }

    fn numbers(&mut self, count: u64) -> Option<Vec<u64>> {
        let bytes = self.take(count.checked_mul(8)?)?;
        Some(bytes.chunks_exact(8).map(|eight| u64::from_be_bytes(eight.try_into().unwrap())).collect())
    }

    /// Runs up to the one of length 0.
    fn runs<T>(&mut self, read: fn(&mut Source<'a>, u64) -> Option<Vec<T>>) -> Option<Vec<Run<T>>> {
        let mut runs = Vec::new();
        loop {
            let (at, length) = (self.number()?, self.number()?);
            if length == 0 {
                return Some(runs);
            }
            runs.push(Run { at: usize::try_from(at).ok()?, now: read(self, length)? });
        }
    }
}

fn put(out: &mut Vec<u8>, number: u64) {
    out.extend_from_slice(&number.to_be_bytes());
}

fn put_all(out: &mut Vec<u8>, numbers: &[u64]) {
    for number in numbers {
        put(out, *number);
    }
}

fn head(out: &mut Vec<u8>, kind: u64, a: u64, b: u64) {
    put_all(out, &[kind, a, b]);
}
