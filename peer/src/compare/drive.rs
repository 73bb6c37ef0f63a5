//! A run: sequences are made in order, and shared out to children that answer them side by side.

use super::child::{Answers, Program, SILENCE};
use super::judge::{self, Fault};
use super::report::Tally;
use super::sequence::Sequence;
use super::sessions;
use std::io;
use std::process::ChildStdin;
use std::sync::atomic::{AtomicBool, Ordering};
use std::sync::mpsc::{channel, sync_channel, Receiver, RecvTimeoutError, SyncSender};
use std::sync::{Arc, Mutex};
use std::thread;
use std::time::{Duration, Instant};

/// How many sequences wait for a child, and how many may be with one before they are judged: enough that the program never waits for
/// commands while it keeps answers back.
const WAITING: usize = 16;
const UNDER_WAY: usize = 256;
/// How often it is told how far the run is.
const TELL_EVERY: Duration = Duration::from_secs(5);

/// What is to be run.
#[derive(Clone, Debug)]
pub struct Plan {
    pub seed: u64,
    /// How many calls at least are to be answered.
    pub calls: u64,
    /// The one sequence to run, where only one is wanted.
    pub only: Option<u64>,
    pub command: Vec<String>,
    pub children: usize,
}

/// A sequence with its number.
#[derive(Clone)]
pub struct Job {
    pub number: u64,
    pub sequence: Arc<Sequence>,
}

/// A fault in a sequence; where no answer came, the sequences that were with the same child are held too.
pub struct Finding {
    pub job: Job,
    pub fault: Fault,
    pub under_way: Vec<Job>,
}

/// What the threads of a run share.
#[derive(Default)]
struct Shared {
    stop: AtomicBool,
    tally: Mutex<Tally>,
    finding: Mutex<Option<Finding>>,
    failure: Mutex<Option<io::Error>>,
}

/// Runs the plan; gives what was counted, and the first finding.
pub fn run(plan: &Plan) -> io::Result<(Tally, Option<Finding>)> {
    let shared = Shared::default();
    let (to_children, jobs) = sync_channel(WAITING);
    let jobs = Arc::new(Mutex::new(jobs));
    let (done, until_done) = channel::<()>();
    thread::scope(|scope| {
        scope.spawn(|| tell(&shared, until_done));
        let workers: Vec<_> = (0..plan.children)
            .map(|_| {
                let (jobs, shared) = (Arc::clone(&jobs), &shared);
                scope.spawn(move || with_child(plan, jobs, shared))
            })
            .collect();
        // Only the workers hold the jobs now, so that handing one out fails when no worker is left.
        drop(jobs);
        hand_out(plan, to_children, &shared);
        workers.into_iter().for_each(|worker| drop(worker.join()));
        drop(done);
    });
    if let Some(failure) = taken(&shared.failure) {
        return Err(failure);
    }
    let finding = taken(&shared.finding);
    let tally = shared.tally.lock().map(|tally| tally.clone()).unwrap_or_default();
    Ok((tally, finding))
}

fn taken<T>(from: &Mutex<Option<T>>) -> Option<T> {
    from.lock().ok().and_then(|mut held| held.take())
}

/// Makes the sequences in order, until enough calls are on their way.
fn hand_out(plan: &Plan, to: SyncSender<Job>, shared: &Shared) {
    let mut calls = 0;
    for number in plan.only.unwrap_or(0).. {
        let sequence = Arc::new(sessions::sequence(plan.seed, number));
        calls += sequence.answers();
        let handed = to.send(Job { number, sequence });
        if handed.is_err() || plan.only.is_some() || calls >= plan.calls || shared.stop.load(Ordering::Relaxed) {
            return;
        }
    }
}

/// Tells every few seconds how far the run is.
fn tell(shared: &Shared, until_done: Receiver<()>) {
    let begun = Instant::now();
    while until_done.recv_timeout(TELL_EVERY) == Err(RecvTimeoutError::Timeout) {
        if let Ok(tally) = shared.tally.lock() {
            println!("{} calls, {} sequences, {} seconds", tally.calls, tally.sequences, begun.elapsed().as_secs());
        }
    }
}

/// Starts a child, and has one thread write commands to it while this one judges its answers.
fn with_child(plan: &Plan, jobs: Arc<Mutex<Receiver<Job>>>, shared: &Shared) {
    let (mut program, answers) = match Program::start(&plan.command, SILENCE) {
        Ok(started) => started,
        Err(error) => return fail(shared, error),
    };
    let Some(input) = program.take_input() else { return };
    let (to_judge, under_way) = sync_channel(UNDER_WAY);
    thread::scope(|scope| {
        scope.spawn(move || write(jobs, input, to_judge));
        judge_all(under_way, answers, shared);
        // Where the judging ended early, this ends the writing too.
        drop(program);
    });
}

fn fail(shared: &Shared, error: io::Error) {
    shared.stop.store(true, Ordering::Relaxed);
    if let Ok(mut failure) = shared.failure.lock() {
        *failure = Some(error);
    }
}

/// Writes the commands of one job after the other, until there is none or the child takes no more.
fn write(jobs: Arc<Mutex<Receiver<Job>>>, mut input: ChildStdin, to_judge: SyncSender<Job>) {
    loop {
        let job = match jobs.lock().map(|jobs| jobs.recv()) {
            Ok(Ok(job)) => job,
            _ => return,
        };
        if to_judge.send(job.clone()).is_err() || judge::send(job.sequence.calls(), &mut input).is_err() {
            return;
        }
    }
}

/// Judges one job after the other; ends at the first fault, here or with another child.
fn judge_all(under_way: Receiver<Job>, mut answers: Answers, shared: &Shared) {
    let mut last = None;
    for job in &under_way {
        if shared.stop.load(Ordering::Relaxed) {
            return;
        }
        let mut tally = Tally::default();
        let judged = judge_one(&job, &mut answers, &mut tally);
        if let Ok(mut all) = shared.tally.lock() {
            all.add_all(&tally);
        }
        if let Err(fault) = judged {
            return found(shared, job, fault, under_way.try_iter().collect());
        }
        last = Some(job);
    }
    if let Some(job) = last {
        if let Err(fault) = judge::ended(&mut answers, job.sequence.calls().count()) {
            found(shared, job, fault, Vec::new());
        }
    }
}

fn judge_one(job: &Job, answers: &mut Answers, tally: &mut Tally) -> Result<(), Fault> {
    if let Some(doubt) = &job.sequence.doubt {
        return Err(Fault { call: 0, what: doubt.clone(), lost: None });
    }
    judge::judge(job.sequence.calls(), answers, tally, &mut |_, _| ())
}

fn found(shared: &Shared, job: Job, fault: Fault, under_way: Vec<Job>) {
    shared.stop.store(true, Ordering::Relaxed);
    if let Ok(mut finding) = shared.finding.lock() {
        finding.get_or_insert(Finding { job, fault, under_way });
    }
}
