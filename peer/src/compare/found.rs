//! What is done with a fault: the sequence is made short, told of and written to a file; and such a file is run again.

use super::child::SILENCE;
use super::drive::{Finding, Job, Plan};
use super::judge::{self, Fault};
use super::mirror::Mirror;
use super::report;
use super::sequence::Sequence;
use super::shrink::{self, Short};
use crate::calls::{Call, Source};
use crate::peer::Peer;
use std::fs;
use std::io;
use std::path::Path;

/// Sequences with more bytes than this are not held as calls.
const HELD: usize = 64 << 20;

/// Tells of the fault, as short as it could be made.
pub fn tell(plan: &Plan, finding: &Finding) -> io::Result<()> {
    println!("sequence {}, call {}: {}", finding.job.number, finding.job.sequence_call(finding.fault.call), finding.fault.what);
    println!("the sequence again: tests/compare --seed {} --only {} -- {}", plan.seed, finding.job.number, plan.command.join(" "));
    if finding.job.sequence.doubt.is_some() {
        return write(plan, finding.job.number, &as_it_was(finding));
    }
    let suspects = std::iter::once(&finding.job).chain(&finding.under_way);
    let short = suspects.filter_map(|job| made_short(plan, job).map(|short| (job.number, short))).next();
    let (number, short) = match short {
        Some(found) => found,
        None if finding.job.sequence.bytes() > HELD => {
            println!("the sequence shows no fault when it is run alone, and is too long to be written");
            return Ok(());
        }
        None => {
            println!("the sequence shows no fault when it is run alone; it is written as it was");
            (finding.job.number, as_it_was(finding))
        }
    };
    write(plan, number, &short)
}

impl Job {
    /// The call of that number in words.
    fn sequence_call(&self, number: usize) -> String {
        let call = self.sequence.calls().nth(number).map(report::call).unwrap_or_default();
        format!("{number} ({})", call.chars().take(60).collect::<String>())
    }
}

fn as_it_was(finding: &Finding) -> Short {
    let sequence = &finding.job.sequence;
    let calls = if sequence.bytes() <= HELD { sequence.calls().cloned().collect() } else { sequence.lead.clone() };
    Short { calls, fault: finding.fault.clone() }
}

/// The sequence made short, if it has a fault when it is run alone.
fn made_short(plan: &Plan, job: &Job) -> Option<Short> {
    let calls = if job.sequence.bytes() <= HELD { job.sequence.calls().cloned().collect() } else { last_call(plan, job)? };
    shrink::with_program(&plan.command, calls)
}

/// The call with the fault, on what is lent before it.
fn last_call(plan: &Plan, job: &Job) -> Option<Vec<Call>> {
    let mut mirror = Mirror::default();
    judge::alone(&plan.command, &job.sequence, SILENCE, &mut |call, answer| mirror.see(call, answer)).ok().flatten()?;
    Some(mirror.calls())
}

fn write(plan: &Plan, number: u64, short: &Short) -> io::Result<()> {
    let mut bytes = Vec::new();
    short.calls.iter().for_each(|call| call.write(&mut bytes));
    // From the root of the repository the file goes into the folder of this project.
    let folder = if Path::new("peer").is_dir() { "peer/" } else { "" };
    let name = format!("{folder}mismatch-{}-{number}.calls", plan.seed);
    fs::write(&name, bytes)?;
    println!("made short:");
    for (number, call) in short.calls.iter().enumerate() {
        println!("{number:>4}  {}", report::call(call));
    }
    println!("difference at call {}: {}", short.fault.call, short.fault.what);
    println!("run it again: tests/compare --replay {name} -- {}", plan.command.join(" "));
    Ok(())
}

/// Runs the calls of a file; prints of each what both say. Gives whether they agree.
pub fn replay(command: &[String], name: &str) -> io::Result<bool> {
    let bytes = fs::read(name)?;
    let mut source = Source::new(&bytes);
    let mut calls = Vec::new();
    while !source.is_empty() {
        calls.push(Call::read(&mut source).ok_or_else(|| io::Error::other("the file is not of the form of docs/BATCH.md"))?);
    }
    let sequence = Sequence { lead: calls, ..Sequence::default() };
    let mut peer = Peer::new();
    let fault = judge::alone(command, &sequence, SILENCE, &mut |call, answer| {
        println!("{}", report::call(call));
        if let Some(answer) = answer {
            println!("  program: {}", report::answer(answer));
            println!("  peer:    {}", peer.says(call).map_or("cannot say".to_string(), |says| report::said_by_peer(&says)));
        }
        // What is different is told at the end; here the peer only has to know what came.
        let _ = peer.judge(call, answer);
    })?;
    if let Some(Fault { call, what, .. }) = &fault {
        println!("difference at call {call}: {what}");
    }
    Ok(fault.is_none())
}
