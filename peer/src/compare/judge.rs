//! Calls sent to the program under test, and what it answers judged by the peer.

use super::child::{Answers, Lost, Program};
use super::report::Tally;
use super::sequence::Sequence;
use super::twins::Twins;
use crate::calls::{Answer, Call};
use crate::peer::Peer;
use std::io::{self, Write};
use std::panic::{catch_unwind, AssertUnwindSafe};
use std::process::ChildStdin;
use std::thread;
use std::time::Duration;

/// How many bytes of commands are written at once.
const AT_ONCE: usize = 1 << 16;

/// The first call of a sequence at which the program and the peer differ, and how; `lost` where no answer came.
#[derive(Clone, Debug)]
pub struct Fault {
    pub call: usize,
    pub what: String,
    pub lost: Option<Lost>,
}

/// Writes commands to the program.
pub fn send<'a>(calls: impl Iterator<Item = &'a Call>, input: &mut ChildStdin) -> io::Result<()> {
    let mut bytes = Vec::new();
    for call in calls {
        call.write(&mut bytes);
        if bytes.len() >= AT_ONCE {
            input.write_all(&bytes)?;
            bytes.clear();
        }
    }
    input.write_all(&bytes)?;
    input.flush()
}

/// Judges the answers to the calls of a sequence. `see` is shown each call with its answer.
pub fn judge<'a>(
    calls: impl Iterator<Item = &'a Call>,
    answers: &mut Answers,
    tally: &mut Tally,
    see: &mut dyn FnMut(&Call, Option<&Answer>),
) -> Result<(), Fault> {
    let (mut peer, mut twins) = (Peer::new(), Twins::default());
    for (number, call) in calls.enumerate() {
        let fault = |what: String, lost| Fault { call: number, what, lost };
        let answer = match call.is_answered().then(|| answers.take()).transpose() {
            Ok(answer) => answer,
            Err(lost) => return Err(fault(lost.to_string(), Some(lost))),
        };
        if let Some(answer) = &answer {
            tally.add(answer);
        }
        see(call, answer.as_ref());
        // A peer that breaks down tells nothing of the answer; but the calls that do it have to be known.
        let judged = catch_unwind(AssertUnwindSafe(|| peer.judge(call, answer.as_ref())));
        let judged = judged.map_err(|_| fault("the peer broke down".to_string(), None))?;
        judged.map_err(|difference| fault(difference.what, None))?;
        if let Some(wrong) = twins.wrong(call, answer.as_ref()) {
            return Err(fault(wrong, None));
        }
    }
    tally.sequences += 1;
    Ok(())
}

/// Runs a sequence through a program started for it alone.
pub fn alone(
    command: &[String],
    sequence: &Sequence,
    silence: Duration,
    see: &mut dyn FnMut(&Call, Option<&Answer>),
) -> io::Result<Option<Fault>> {
    let (mut program, mut answers) = Program::start(command, silence)?;
    let input = program.take_input();
    thread::scope(|scope| {
        // Where the program ends early the writing fails; what is wrong then is seen where the answers are read.
        scope.spawn(move || input.map(|mut input| send(sequence.calls(), &mut input)));
        let judged = judge(sequence.calls(), &mut answers, &mut Tally::default(), see);
        let judged = judged.and_then(|()| ended(&mut answers, sequence.calls().count()));
        // Both ends of the program are let go, so that the writing ends too.
        drop((program, answers));
        Ok(judged.err())
    })
}

/// After the last answer the program has to end without another byte.
pub fn ended(answers: &mut Answers, calls: usize) -> Result<(), Fault> {
    answers.end().map_err(|lost| Fault { call: calls.saturating_sub(1), what: format!("after the last answer: {lost}"), lost: Some(lost) })
}
