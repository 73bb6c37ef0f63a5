//! The table that is printed.

use crate::instructions::Counts;
use crate::pair::Call;
use bench::segments::Segment;

pub fn head(segments: &[Segment], counted: bool) {
    println!("Segments:");
    for segment in segments {
        println!("  {:<10} {:>11} bytes  {}", segment.name, segment.bytes.len(), segment.what);
    }
    println!();
    println!(
        "Instructions and times of one call, the library's, the plain reader's and their ratio. A feed is start, all feeds and finish;"
    );
    println!(
        "a lookup is the average over the starts of all leaves, or one of a time past the list. Times are medians; they waver, and the"
    );
    println!(
        "goals are about instructions. Where a feeding has further goals, lines below it give its instructions beside those of the plain"
    );
    println!("reader that has the whole segment, or those for one of its pieces.");
    if !counted {
        println!("There is no valgrind here, so that instructions are not counted.");
    }
    println!();
    println!(
        "{:<10} {:<22} {:>12} {:>12} {:>6} {:>5} {:<6} {:>10} {:>10} {:>6}",
        "segment", "call", "library", "plain", "ratio", "goal", "", "library", "plain", "ratio"
    );
}

/// Prints a row. True where the goal is missed.
pub fn row(segment: &str, call: Call, calls: usize, counted: Option<Counts>, times: (f64, f64)) -> bool {
    let each = |total: f64| total / calls as f64;
    let goal = call.goal(segment);
    let goal_words = goal.map_or("-".into(), |goal| format!("{goal:.1}"));
    let ratio = counted.map(|(library, plain)| library as f64 / plain as f64);
    let missed = ratio.zip(goal).is_some_and(|(ratio, goal)| ratio > goal);
    let (library, plain) = match counted {
        Some((library, plain)) => (format!("{:.0}", each(library as f64)), format!("{:.0}", each(plain as f64))),
        None => ("-".into(), "-".into()),
    };
    println!(
        "{segment:<10} {:<22} {library:>12} {plain:>12} {:>6} {goal_words:>5} {:<6} {:>10} {:>10} {:>6.2}",
        call.name(),
        ratio.map_or("-".into(), |ratio| format!("{ratio:.2}")),
        word(missed),
        duration(each(times.0)),
        duration(each(times.1)),
        times.0 / times.1
    );
    missed
}

/// Prints a feeding beside the plain reader that has the whole segment, if that has a goal. True where it is missed.
pub fn beside_whole(segment: &str, call: Call, library: u64, whole: u64) -> bool {
    let Some(goal) = call.goal_to_whole(segment) else { return false };
    let ratio = library as f64 / whole as f64;
    println!("{segment:<10} {:<22} {library:>12} {whole:>12} {ratio:>6.2} {goal:>5.1} {}", "  beside plain whole", word(ratio > goal));
    ratio > goal
}

/// Prints the instructions of a feeding for one of its pieces, if that has a goal. True where it is missed.
pub fn a_piece(segment: &Segment, call: Call, library: u64) -> bool {
    let (Some(goal), Call::Feed(piece)) = (call.goal_a_piece(segment.name), call) else { return false };
    let each = library as f64 / segment.bytes.len().div_ceil(piece) as f64;
    println!("{:<10} {:<22} {each:>12.0} {:>12} {:>6} {goal:>5.0} {}", segment.name, "  a piece", "-", "-", word(each > goal));
    each > goal
}

fn word(missed: bool) -> &'static str {
    if missed {
        "MISSED"
    } else {
        ""
    }
}

pub fn foot(counted: bool, missed: usize) {
    println!();
    match (counted, missed) {
        (false, _) => println!("No goal was looked at, since no instructions were counted."),
        (true, 0) => println!("Every goal is kept."),
        (true, _) => println!("{missed} goals are missed."),
    }
}

fn duration(nanoseconds: f64) -> String {
    match nanoseconds {
        below if below < 1e4 => format!("{below:.0} ns"),
        below if below < 1e7 => format!("{:.1} us", below / 1e3),
        above => format!("{:.1} ms", above / 1e6),
    }
}
