//! A sequence with a fault made as short as it goes, as long as a fault remains.

use super::judge::{self, Fault};
use super::sequence::Sequence;
use super::sessions::WORK;
use crate::calls::Call;
use crate::time::{Mark, Request};
use std::time::{Duration, Instant};

/// The most tries, and the time that they may take together.
const TRIES: usize = 300;
const TIME: Duration = Duration::from_secs(60);
/// A program that says nothing is not waited for as long as in a run.
const SILENCE: Duration = Duration::from_secs(5);

/// What runs calls and tells their first fault.
type Trial<'a> = dyn FnMut(&[Call]) -> Option<Fault> + 'a;

/// Calls with a fault at the last of them, and the fault.
#[derive(Clone, Debug)]
pub struct Short {
    pub calls: Vec<Call>,
    pub fault: Fault,
}

/// Makes the calls short, each try with a program started for it.
pub fn with_program(command: &[String], calls: Vec<Call>) -> Option<Short> {
    shrink(calls, &mut |calls| {
        let sequence = Sequence { lead: calls.to_vec(), ..Sequence::default() };
        judge::alone(command, &sequence, SILENCE, &mut |_, _| ()).ok().flatten()
    })
}

/// Makes the calls short; `None` where they have no fault by themselves.
pub fn shrink(calls: Vec<Call>, trial: &mut Trial) -> Option<Short> {
    let fault = trial(&calls)?;
    let mut shrinker = Shrinker { trial, tries: TRIES, until: Instant::now() + TIME, best: Short { calls, fault } };
    shrinker.cut();
    loop {
        let before = shrinker.best.calls.clone();
        shrinker.drop_calls();
        shrinker.merge_feeds();
        shrinker.simplify_each();
        if shrinker.best.calls == before || !shrinker.may_try() {
            return Some(shrinker.best);
        }
    }
}

struct Shrinker<'a, 'b> {
    trial: &'a mut Trial<'b>,
    tries: usize,
    until: Instant,
    best: Short,
}

impl Shrinker<'_, '_> {
    fn may_try(&self) -> bool {
        self.tries > 0 && Instant::now() < self.until
    }

    /// Takes the calls as the best if they have a fault.
    fn attempt(&mut self, calls: Vec<Call>) -> bool {
        if !self.may_try() || calls == self.best.calls || !is_of_the_form(&calls) {
            return false;
        }
        self.tries -= 1;
        match (self.trial)(&calls) {
            Some(fault) => {
                self.best = Short { calls, fault };
                self.cut();
                true
            }
            None => false,
        }
    }

    /// Leaves out what comes after the fault. Where an answer is lost the program may have read on, so that the calls all stay.
    fn cut(&mut self) {
        if self.best.fault.lost.is_none() {
            self.best.calls.truncate(self.best.fault.call + 1);
        }
    }

    /// Leaves out calls: halves, quarters, and so on to single ones.
    fn drop_calls(&mut self) {
        let mut size = self.best.calls.len() / 2;
        while size > 0 {
            let mut from = 0;
            while from < self.best.calls.len() {
                let mut fewer = self.best.calls.clone();
                fewer.drain(from..self.best.calls.len().min(from + size));
                if !self.attempt(fewer) {
                    from += size;
                }
            }
            size /= 2;
        }
    }

    /// Makes one feed of two that follow each other.
    fn merge_feeds(&mut self) {
        let mut at = 0;
        while at + 1 < self.best.calls.len() {
            let merged = match &self.best.calls[at..at + 2] {
                [Call::Feed(one), Call::Feed(other)] => Some(Call::Feed([&one[..], other].concat())),
                _ => None,
            };
            let taken = merged.is_some_and(|merged| {
                let mut fewer = self.best.calls.clone();
                fewer.splice(at..at + 2, [merged]);
                self.attempt(fewer)
            });
            if !taken {
                at += 1;
            }
        }
    }

    /// Puts simpler calls in the place of each.
    fn simplify_each(&mut self) {
        let mut at = 0;
        while at < self.best.calls.len() {
            self.shorten(at);
            self.zero(at);
            for way in 0..PLAINER {
                self.replace(at, |call| plainer(call, way));
            }
            at += 1;
        }
    }

    /// Puts what `change` makes of a call in its place. Gives whether a fault remains.
    fn replace(&mut self, at: usize, change: impl Fn(&Call) -> Option<Call>) -> bool {
        let Some(changed) = self.best.calls.get(at).and_then(change) else {
            return false;
        };
        let mut calls = self.best.calls.clone();
        calls[at] = changed;
        self.attempt(calls)
    }

    /// Cuts what a call holds: to nothing, to its first half, to three quarters, to all but the last.
    fn shorten(&mut self, at: usize) {
        let shorter: [fn(usize) -> usize; 4] =
            [|_| 0, |length| length / 2, |length| length - length / 4, |length| length.saturating_sub(1)];
        for to in shorter {
            while self.replace(at, |call| cut_to(call, to(held(call)))) {}
        }
    }

    /// Makes what a call holds 0: halves, quarters, and so on to pieces of a thirty-second.
    fn zero(&mut self, at: usize) {
        for pieces in [1, 2, 4, 8, 16, 32] {
            for piece in 0..pieces {
                self.replace(at, |call| zeroed(call, piece, pieces));
            }
        }
    }
}

/// How many bytes or numbers a call holds.
fn held(call: &Call) -> usize {
    match call {
        Call::Feed(bytes) | Call::Whole { segment: bytes, .. } | Call::WriteWork { bytes, .. } => bytes.len(),
        Call::WriteTable { numbers, .. } | Call::LendState(numbers) => numbers.len(),
        _ => 0,
    }
}

/// The call with so many of its bytes or numbers. A state keeps its length, which says much.
fn cut_to(call: &Call, length: usize) -> Option<Call> {
    let mut cut = call.clone();
    match &mut cut {
        Call::Feed(bytes) | Call::Whole { segment: bytes, .. } | Call::WriteWork { bytes, .. } => bytes.truncate(length),
        Call::WriteTable { numbers, .. } => numbers.truncate(length),
        _ => return None,
    }
    Some(cut)
}

/// The call with one of so many pieces of its bytes or numbers made 0.
fn zeroed(call: &Call, piece: usize, pieces: usize) -> Option<Call> {
    let length = held(call);
    let (from, to) = (length * piece / pieces, length * (piece + 1) / pieces);
    let mut zeroed = call.clone();
    match &mut zeroed {
        Call::Feed(bytes) | Call::Whole { segment: bytes, .. } | Call::WriteWork { bytes, .. } => bytes[from..to].fill(0),
        Call::WriteTable { numbers, .. } | Call::LendState(numbers) => numbers[from..to].fill(0),
        _ => return None,
    }
    Some(zeroed)
}

/// How many ways `plainer` has.
const PLAINER: usize = 6;

/// What is lent made plainer, and a time smaller, in the way of that number.
fn plainer(call: &Call, way: usize) -> Option<Call> {
    match (call, way) {
        (Call::LendWork { .. }, 0) => Some(Call::LendWork { bytes: WORK, each: 0 }),
        (Call::LendWork { bytes, .. }, 1) => Some(Call::LendWork { bytes: *bytes, each: 0 }),
        (Call::LendTable { numbers, .. }, 0) => Some(Call::LendTable { numbers: *numbers, each: 0 }),
        (Call::LendTable { numbers, each }, 1..=5) => {
            let fewer = [0, 6, 12, 60, numbers / 2][way - 1];
            Some(Call::LendTable { numbers: fewer.min(*numbers), each: *each })
        }
        (Call::Lookup(request), _) => plainer_request(*request, way).map(Call::Lookup),
        (Call::Mark(mark), 0) => Some(Call::Lookup(Request::Seconds(mark.seconds))),
        (Call::Mark(mark), 1) => Some(Call::Mark(Mark { page: 1, ..*mark })),
        (Call::Mark(mark), 2) => Some(Call::Mark(Mark { seconds: 0, ..*mark })),
        _ => None,
    }
}

/// A time made smaller, or seconds with fewer digits, in the way of that number.
fn plainer_request(request: Request, way: usize) -> Option<Request> {
    match (request, way) {
        (Request::Ticks(_), 0) => Some(Request::Ticks(0)),
        (Request::Ticks(ticks), 1) => Some(Request::Ticks(ticks / 2)),
        (Request::Seconds(_), 0) => Some(Request::Seconds(0)),
        (Request::Seconds(bits), 1..=3) => Some(Request::Seconds(bits & (u64::MAX << [52, 32, 16][way - 1]))),
        _ => None,
    }
}

/// Whether the commands are of the form of docs/BATCH.md: at another the program ends, and that is no fault.
pub fn is_of_the_form(calls: &[Call]) -> bool {
    let (mut work, mut table) = (WORK, 0);
    calls.iter().all(|call| match call {
        Call::Feed(part) | Call::Whole { segment: part, .. } => part.len() <= 524_288,
        Call::LendState(numbers) => numbers.len() <= 64,
        Call::LendWork { bytes, .. } => {
            work = *bytes;
            work <= 65_536
        }
        Call::LendTable { numbers, .. } => {
            table = *numbers;
            table <= 32_768
        }
        Call::WriteWork { at, bytes } => at + bytes.len() <= work,
        Call::WriteTable { at, numbers } => at + numbers.len() <= table,
        Call::Start { .. } | Call::Finish | Call::Lookup(_) | Call::Mark(_) => true,
    })
}

#[cfg(test)]
mod tests {
    use super::*;

    fn fault(call: usize) -> Fault {
        Fault { call, what: "a difference".to_string(), lost: None }
    }

    #[test]
    fn what_does_not_matter_is_left_out() {
        let feed = |byte: u8| Call::Feed(vec![byte; 40]);
        let calls = vec![
            Call::LendTable { numbers: 60, each: 7 },
            feed(1),
            Call::Finish,
            feed(2),
            feed(9),
            Call::Lookup(Request::Ticks(3)),
            Call::Finish,
        ];
        // The fault shows where a part with a byte of 9 was fed.
        let has_nine = |call: &Call| matches!(call, Call::Feed(part) if part.contains(&9));
        let short = shrink(calls, &mut |calls| calls.iter().position(has_nine).map(fault)).expect("there is a fault");
        assert_eq!(short.calls.len(), 1);
        let Call::Feed(part) = &short.calls[0] else { panic!("not a feed") };
        assert!(part.len() <= 2, "{part:?}");
    }

    #[test]
    fn calls_without_a_fault_are_not_shrunk() {
        assert!(shrink(vec![Call::Finish], &mut |_| None).is_none());
    }

    #[test]
    fn writing_outside_what_is_lent_is_not_of_the_form() {
        let write = Call::WriteTable { at: 5, numbers: vec![1, 2] };
        assert!(!is_of_the_form(std::slice::from_ref(&write)));
        assert!(!is_of_the_form(&[Call::LendTable { numbers: 6, each: 0 }, write.clone()]));
        assert!(is_of_the_form(&[Call::LendTable { numbers: 7, each: 0 }, write]));
    }
}
