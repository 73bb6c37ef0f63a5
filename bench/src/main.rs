//! Measures the library beside the plain reader and prints a table: `bench DATA`, where DATA is the folder of the cases' films.
//! With `--segments FOLDER` it writes the segments there instead, for the program that measures the stack.

mod instructions;
mod library;
mod measured;
mod pair;
mod table;
mod times;

use bench::segments::{films, made, Segment};
use pair::{Call, Pair};
use std::path::Path;
use std::process::ExitCode;
use std::{env, fs, io, process};

fn main() -> ExitCode {
    match command() {
        Ok(true) => ExitCode::SUCCESS,
        Ok(false) => ExitCode::from(2),
        Err(error) => {
            eprintln!("bench: {error}");
            ExitCode::FAILURE
        }
    }
}

/// False where the command is not of the form.
fn command() -> io::Result<bool> {
    let arguments: Vec<String> = env::args().skip(1).collect();
    match arguments.iter().map(String::as_str).collect::<Vec<_>>()[..] {
        [data] => measure(&all(data)?)?,
        [instructions::INSIDE, data] => instructions::make_runs(&all(data)?),
        ["--segments", folder, data] => write(&all(data)?, Path::new(folder))?,
        _ => {
            eprintln!("usage: bench/run");
            return Ok(false);
        }
    }
    Ok(true)
}

fn all(data: &str) -> io::Result<Vec<Segment>> {
    let mut segments = made();
    segments.extend(films(Path::new(data))?);
    Ok(segments)
}

fn write(segments: &[Segment], folder: &Path) -> io::Result<()> {
    fs::create_dir_all(folder)?;
    segments.iter().try_for_each(|segment| fs::write(folder.join(segment.name), &segment.bytes))
}

fn measure(segments: &[Segment]) -> io::Result<()> {
    let folder = env::temp_dir().join(format!("mazurlot-bench-{}", process::id()));
    fs::create_dir_all(&folder)?;
    let counts = instructions::counts(&folder);
    fs::remove_dir_all(&folder)?;
    let counts = counts?;
    table::head(segments, counts.is_some());
    let mut counts = counts.map(Vec::into_iter);
    let mut missed = 0;
    for segment in segments {
        let mut pair = Pair::new(segment);
        let mut whole = None;
        for call in Call::all(segment) {
            let times = times::times(&mut pair, call).map_err(|wrong| io::Error::other(format!("{}: {wrong}", segment.name)))?;
            let counted = counts.as_mut().and_then(Iterator::next);
            missed += usize::from(table::row(segment.name, call, pair.calls(call), counted, times));
            if call == Call::Whole {
                whole = counted;
            }
            if let (Some((library, _)), Some((_, whole))) = (counted, whole) {
                missed += usize::from(table::beside_whole(segment.name, call, library, whole));
                missed += usize::from(table::a_piece(segment, call, library));
            }
        }
    }
    table::foot(counts.is_some(), missed);
    Ok(())
}
