//! Instructions, as callgrind counts them: this program runs itself under it, makes each run once, and callgrind writes one file for each.

use crate::measured::NAMES;
use crate::pair::{Call, Pair, Reader};
use bench::segments::Segment;
use std::path::Path;
use std::process::{Command, Stdio};
use std::{env, fs, io};

/// What the program is told where it runs under callgrind.
pub const INSIDE: &str = "--inside-callgrind";

/// The instructions of one run of the library and of the plain reader.
pub type Counts = (u64, u64);

/// Makes all runs in the order in which their counts are read. What is answered was compared before.
pub fn make_runs(segments: &[Segment]) {
    for segment in segments {
        let mut pair = Pair::new(segment);
        for call in Call::all(segment) {
            pair.run(Reader::Library, call);
            pair.run(Reader::Plain, call);
        }
    }
}

/// The counts of all runs, in the same order. None where there is no valgrind.
pub fn counts(folder: &Path) -> io::Result<Option<Vec<Counts>>> {
    if Command::new("valgrind").arg("--version").stdout(Stdio::null()).status().is_err() {
        return Ok(None);
    }
    let written = folder.join("count");
    let mut valgrind = Command::new("valgrind");
    valgrind.args(["-q", "--tool=callgrind"]).arg(format!("--callgrind-out-file={}", written.display()));
    // Of several options that toggle, callgrind heeds the first; of those that write, it takes no pattern.
    valgrind.arg("--toggle-collect=measured_*").args(NAMES.map(|name| format!("--dump-after={name}")));
    let status = valgrind.arg(env::current_exe()?).arg(INSIDE).args(env::args_os().skip(1)).stdout(Stdio::null()).status()?;
    if !status.success() {
        return Err(io::Error::other(format!("valgrind: {status}")));
    }
    let mut counts = Vec::new();
    while let (Some(library), Some(plain)) = (count(&written, 2 * counts.len() + 1)?, count(&written, 2 * counts.len() + 2)?) {
        counts.push((library, plain));
    }
    Ok(Some(counts))
}

/// What callgrind has counted for a run, numbered from 1. None where there was no such run.
fn count(written: &Path, run: usize) -> io::Result<Option<u64>> {
    let text = match fs::read_to_string(written.with_extension(run.to_string())) {
        Err(error) if error.kind() == io::ErrorKind::NotFound => return Ok(None),
        text => text?,
    };
    let total = text.lines().find_map(|line| line.strip_prefix("totals: ")?.trim().parse().ok());
    total.map(Some).ok_or(io::Error::other(format!("no total in what callgrind wrote for run {run}")))
}
