//! The arguments of the program `compare`.

use super::drive::Plan;
use std::path::Path;
use std::thread;
use std::time::{SystemTime, UNIX_EPOCH};

/// How it is called.
pub const USAGE: &str = "compare [--calls N] [--seed S] [--only K] [--children N] [--replay FILE] [-- COMMAND ARG ..]";

/// How many calls a run makes unless told.
const CALLS: u64 = 100_000;

#[derive(Clone, Debug)]
pub struct Options {
    pub plan: Plan,
    pub replay: Option<String>,
}

/// The options that these arguments give, or what is wrong with them.
pub fn read(arguments: impl Iterator<Item = String>) -> Result<Options, String> {
    let children = thread::available_parallelism().map_or(1, |cores| cores.get().min(4));
    let plan = Plan { seed: seed_of_the_clock(), calls: CALLS, only: None, command: default_command(), children };
    let mut options = Options { plan, replay: None };
    let mut arguments = arguments;
    while let Some(argument) = arguments.next() {
        let mut value = || arguments.next().ok_or_else(|| format!("{argument} wants something after it"));
        match argument.as_str() {
            "--calls" => options.plan.calls = number(&value()?)?,
            "--seed" => options.plan.seed = number(&value()?)?,
            "--only" => options.plan.only = Some(number(&value()?)?),
            "--children" => options.plan.children = number(&value()?)?.clamp(1, 64) as usize,
            "--replay" => options.replay = Some(value()?),
            "--" => options.plan.command = arguments.by_ref().collect(),
            other => return Err(format!("{other} is not known")),
        }
    }
    if options.plan.only.is_some() {
        options.plan.children = 1;
    }
    Ok(options)
}

fn number(text: &str) -> Result<u64, String> {
    text.replace(',', "").parse().map_err(|_| format!("{text} is no number"))
}

fn seed_of_the_clock() -> u64 {
    SystemTime::now().duration_since(UNIX_EPOCH).map_or(1, |time| time.as_micros() as u64 % 1_000_000_000)
}

/// The program `batch`, from the root of the repository or from the folder of this project.
fn default_command() -> Vec<String> {
    let run = if Path::new("./run").is_file() { "./run" } else { "../run" };
    vec![run.to_string(), "batch".to_string()]
}

#[cfg(test)]
mod tests {
    use super::*;

    fn of(text: &str) -> Result<Options, String> {
        read(text.split_whitespace().map(str::to_string))
    }

    #[test]
    fn arguments_are_read() {
        let options = of("--calls 50,000 --seed 7 -- prog --calls 3").expect("they are right");
        assert_eq!((options.plan.calls, options.plan.seed), (50_000, 7));
        assert_eq!(options.plan.command, ["prog", "--calls", "3"]);
        assert_eq!(of("--only 5").expect("it is right").plan.children, 1);
    }

    #[test]
    fn wrong_arguments_are_told() {
        assert!(of("--calls").is_err());
        assert!(of("--calls many").is_err());
        assert!(of("more").is_err());
    }
}
