//! Reads a segment on standard input and prints its listing, as the second program has it.

use peer::listing::listing;
use std::io::{self, Read, Write};
use std::process::ExitCode;

fn main() -> ExitCode {
    let mut segment = Vec::new();
    let done = io::stdin().lock().read_to_end(&mut segment).and_then(|_| io::stdout().write_all(listing(&segment).as_bytes()));
    match done {
        Ok(()) => ExitCode::SUCCESS,
        Err(error) => {
            eprintln!("peer_list: {error}");
            ExitCode::FAILURE
        }
    }
}
