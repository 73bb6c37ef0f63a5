//! The program under test as a child process: commands go to its standard input, answers come from its standard output.

use crate::calls::{Answer, Source};
use std::fmt;
use std::io::{self, Read};
use std::os::unix::process::CommandExt;
use std::process::{Child, ChildStdin, ChildStdout, Command, Stdio};
use std::sync::mpsc::{sync_channel, Receiver, RecvTimeoutError, SyncSender};
use std::thread;
use std::time::Duration;

/// How long the program may say nothing while an answer is awaited.
pub const SILENCE: Duration = Duration::from_secs(60);
/// No answer is as long as this: not with each second byte and number changed of the most that can be lent.
const LONGEST_ANSWER: usize = 4 << 20;
const CHUNK: usize = 1 << 16;

/// Why an answer did not come.
#[derive(Clone, Debug, PartialEq, Eq)]
pub enum Lost {
    Ended,
    Silent(Duration),
    Unreadable,
}

impl fmt::Display for Lost {
    fn fmt(&self, out: &mut fmt::Formatter) -> fmt::Result {
        match self {
            Lost::Ended => write!(out, "the program ended before it answered this call"),
            Lost::Silent(time) => write!(out, "the program wrote nothing for {} seconds", time.as_secs()),
            Lost::Unreadable => write!(out, "what the program wrote is no answer"),
        }
    }
}

/// The program, started. It is ended when this is dropped.
pub struct Program {
    process: Child,
    input: Option<ChildStdin>,
}

impl Program {
    /// Starts the program that these words name.
    pub fn start(command: &[String], silence: Duration) -> io::Result<(Program, Answers)> {
        let (name, arguments) = command.split_first().ok_or_else(|| io::Error::other("no command is given"))?;
        // A group of its own: the command may be a script that starts the program, and both have to be ended together.
        let mut command = Command::new(name);
        command.args(arguments).stdin(Stdio::piped()).stdout(Stdio::piped()).process_group(0);
        let mut process = command.spawn()?;
        let input = process.stdin.take();
        let output = process.stdout.take().ok_or_else(|| io::Error::other("the program has no standard output"))?;
        Ok((Program { process, input }, Answers::from(output, silence)))
    }

    /// Where commands are written to; it can be taken once, and the input ends when it is dropped.
    pub fn take_input(&mut self) -> Option<ChildStdin> {
        self.input.take()
    }
}

impl Drop for Program {
    fn drop(&mut self) {
        // It may have ended by itself; then there is nothing left to end.
        if let Ok(None) = self.process.try_wait() {
            let group = format!("-{}", self.process.id());
            let _ = Command::new("kill").args(["-KILL", "--", &group]).stderr(Stdio::null()).status();
            let _ = self.process.kill();
            let _ = self.process.wait();
        }
    }
}

/// The answers that the program writes, in order.
pub struct Answers {
    chunks: Receiver<Vec<u8>>,
    held: Vec<u8>,
    /// How much of `held` was read.
    read: usize,
    silence: Duration,
}

impl Answers {
    /// A thread of its own reads what the program writes, so that waiting for it can be given up.
    fn from(output: ChildStdout, silence: Duration) -> Answers {
        let (sender, chunks) = sync_channel(64);
        thread::spawn(move || pump(output, &sender));
        Answers { chunks, held: Vec::new(), read: 0, silence }
    }

    /// Waits for the next answer.
    pub fn take(&mut self) -> Result<Answer, Lost> {
        loop {
            let mut source = Source::new(&self.held[self.read..]);
            if let Some(answer) = Answer::read(&mut source) {
                self.read = self.held.len() - source.left();
                return Ok(answer);
            }
            if self.held.len() - self.read > LONGEST_ANSWER {
                return Err(Lost::Unreadable);
            }
            self.more()?;
        }
    }

    /// Waits for the end of what the program writes, which has to come without another byte.
    pub fn end(&mut self) -> Result<(), Lost> {
        match (self.read < self.held.len(), self.more()) {
            (true, _) | (_, Ok(())) => Err(Lost::Unreadable),
            (_, Err(Lost::Ended)) => Ok(()),
            (_, Err(lost)) => Err(lost),
        }
    }

    fn more(&mut self) -> Result<(), Lost> {
        let chunk = self.chunks.recv_timeout(self.silence).map_err(|error| match error {
            RecvTimeoutError::Timeout => Lost::Silent(self.silence),
            RecvTimeoutError::Disconnected => Lost::Ended,
        })?;
        self.held.drain(..self.read);
        self.read = 0;
        self.held.extend(chunk);
        Ok(())
    }
}

fn pump(mut output: ChildStdout, to: &SyncSender<Vec<u8>>) {
    let mut chunk = vec![0; CHUNK];
    loop {
        match output.read(&mut chunk) {
            Ok(0) | Err(_) => return,
            Ok(count) if to.send(chunk[..count].to_vec()).is_err() => return,
            Ok(_) => (),
        }
    }
}
