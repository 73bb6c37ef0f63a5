//! Times: passes of the library and of the plain reader in turn, and the median of each.

use crate::pair::{Call, Pair, Reader};
use std::time::{Duration, Instant};

const PASSES: usize = 7;

/// A pass is long enough to be seen by the clock.
const PASS: Duration = Duration::from_millis(2);

/// The nanoseconds of one run of the library and of the plain reader. An error where they do not answer the same.
pub fn times(pair: &mut Pair, call: Call) -> Result<(f64, f64), String> {
    let begun = Instant::now();
    pair.run(Reader::Plain, call);
    let runs = (PASS.as_nanos() / begun.elapsed().as_nanos().max(1)).clamp(1, 20_000) as usize;
    let (mut library, mut plain) = (Vec::new(), Vec::new());
    for _ in 0..PASSES {
        pair.forget(call);
        let (library_time, library_answer) = pass(pair, Reader::Library, call, runs);
        let (plain_time, plain_answer) = pass(pair, Reader::Plain, call, runs);
        if library_answer != plain_answer || !pair.same_leaves() {
            return Err(format!("{}: the library answers {library_answer:?}, the plain reader {plain_answer:?}", call.name()));
        }
        library.push(library_time);
        plain.push(plain_time);
    }
    Ok((median(library), median(plain)))
}

fn pass(pair: &mut Pair, reader: Reader, call: Call, runs: usize) -> (f64, crate::pair::Answer) {
    let begun = Instant::now();
    let mut answer = pair.run(reader, call);
    for _ in 1..runs {
        answer = pair.run(reader, call);
    }
    (begun.elapsed().as_nanos() as f64 / runs as f64, answer)
}

fn median(mut times: Vec<f64>) -> f64 {
    times.sort_by(f64::total_cmp);
    times[times.len() / 2]
}
