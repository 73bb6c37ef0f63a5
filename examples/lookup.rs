//! Looks a time up in a film's segment, and tells which bytes to fetch: lookup FILE SECONDS.

use mazurlot::{Leaf, Reader, Refusal, MOST_LEAVES, MSDH};
use std::error::Error;
use std::fs::File;
use std::io::Read;
use std::process::ExitCode;

/// Reads the segment in pieces, as a player does, and looks the time up in its list.
fn lookup(path: &str, seconds: f64) -> Result<Leaf, Box<dyn Error>> {
    let mut file = File::open(path)?;
    let mut piece = vec![0; 65_536];
    let mut reader = Reader::new(MSDH, MOST_LEAVES);
    loop {
        let count = file.read(&mut piece)?;
        if count == 0 {
            return Ok(reader.finish()?.lookup_seconds(seconds)?);
        }
        reader.feed(&piece[..count])?;
    }
}

fn main() -> ExitCode {
    let arguments: Vec<String> = std::env::args().collect();
    let [_, path, seconds] = &arguments[..] else {
        eprintln!("usage: lookup FILE SECONDS");
        return ExitCode::from(2);
    };
    let Ok(seconds) = seconds.parse() else {
        eprintln!("lookup: {seconds} is not a number of seconds");
        return ExitCode::from(2);
    };
    match lookup(path, seconds) {
        Ok(leaf) => {
            let (first, last) = (leaf.bytes().start, leaf.bytes().end - 1);
            println!(
                "leaf {}: bytes {first}-{last}, {} ticks from {}",
                leaf.number, leaf.duration, leaf.start
            );
            ExitCode::SUCCESS
        }
        Err(error) => match error.downcast_ref::<Refusal>() {
            Some(refusal) => {
                eprintln!(
                    "refused: number {}, place {}",
                    refusal.reason.number(),
                    refusal.place
                );
                ExitCode::from(1)
            }
            None => {
                eprintln!("{path}: {error}");
                ExitCode::from(2)
            }
        },
    }
}
