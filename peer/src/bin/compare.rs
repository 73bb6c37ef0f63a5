//! Compares the proved program with the peer on segments and calls made at random.

use peer::compare::drive::{self, Plan};
use peer::compare::report::Tally;
use peer::compare::{found, options};
use std::io;
use std::process::ExitCode;
use std::time::Instant;

/// From so many calls on, each number has to have come.
const EACH_NUMBER_FROM: u64 = 50_000;

fn main() -> ExitCode {
    let options = match options::read(std::env::args().skip(1)) {
        Ok(options) => options,
        Err(wrong) => {
            eprintln!("{wrong}\n{}", options::USAGE);
            return ExitCode::from(2);
        }
    };
    let agreed = match &options.replay {
        Some(name) => found::replay(&options.plan.command, name),
        None => compare(&options.plan),
    };
    match agreed {
        Ok(true) => ExitCode::SUCCESS,
        Ok(false) => ExitCode::FAILURE,
        Err(error) => {
            eprintln!("{}: {error}", options.plan.command.join(" "));
            ExitCode::FAILURE
        }
    }
}

/// Makes the run and tells of it; gives whether all was as it has to be.
fn compare(plan: &Plan) -> io::Result<bool> {
    println!("seed {}, {} calls, {} children", plan.seed, plan.calls, plan.children);
    let begun = Instant::now();
    let (tally, finding) = drive::run(plan)?;
    let seconds = begun.elapsed().as_secs_f64();
    println!(
        "{} calls, {} sequences, {seconds:.1} seconds, {:.0} calls a second",
        tally.calls,
        tally.sequences,
        tally.calls as f64 / seconds
    );
    print!("{}", tally.lines());
    let mut agreed = each_number_came(&tally);
    if let Some(finding) = &finding {
        agreed = false;
        found::tell(plan, finding)?;
    }
    println!("seed {}: {}", plan.seed, if agreed { "no difference" } else { "not as it has to be" });
    Ok(agreed)
}

fn each_number_came(tally: &Tally) -> bool {
    let missing = tally.missing();
    if missing.is_empty() {
        return true;
    }
    println!("numbers that never came: {missing:?}");
    tally.calls < EACH_NUMBER_FROM
}
