//! The peer in the place of the proved program: reads commands of docs/BATCH.md and answers by what the peer says. The comparison is
//! tried with it. With a number as argument it has a fault of its own, for the comparison to find.

use peer::calls::{Answer, Call, Source, PAGE};
use peer::compare::stand_in::StandIn;
use peer::time::Request;
use std::io::{self, Read, Write};

fn main() -> io::Result<()> {
    let fault = std::env::args().nth(1).and_then(|number| number.parse().ok()).unwrap_or(0);
    let (mut input, mut output) = (io::stdin().lock(), io::stdout().lock());
    let (mut held, mut stand_in) = (Vec::new(), StandIn::default());
    let mut chunk = vec![0; 1 << 16];
    loop {
        let count = input.read(&mut chunk)?;
        if count == 0 {
            return Ok(());
        }
        held.extend_from_slice(&chunk[..count]);
        let mut answers = Vec::new();
        let mut read = 0;
        loop {
            let mut source = Source::new(&held[read..]);
            let Some(call) = Call::read(&mut source) else { break };
            read = held.len() - source.left();
            let taken = misread(fault, &call, stand_in.state());
            if let Some(mut answer) = stand_in.answer(&taken) {
                plant(fault, &call, &mut answer);
                answer.write(&mut answers);
            }
        }
        held.drain(..read);
        output.write_all(&answers)?;
        output.flush()?;
    }
}

/// The call that is answered in the place of this one. With fault 12 the product of seconds and timescale is rounded to a double before
/// it is compared, and with fault 13 negative zero is below zero.
fn misread(fault: u64, call: &Call, state: &[u64]) -> Call {
    match (fault, call, state) {
        (12, Call::Lookup(Request::Seconds(bits)), [4, _, _, _, scale, ..]) => {
            let product = f64::from_bits(*bits) * *scale as f64;
            let fits = (0.0..18_446_744_073_709_551_616.0).contains(&product);
            Call::Lookup(if fits { Request::Ticks(product as u64) } else { Request::Seconds(*bits) })
        }
        (13, Call::Lookup(Request::Seconds(bits)), _) if *bits == 1 << 63 => Call::Lookup(Request::Seconds(bits | 1)),
        _ => call.clone(),
    }
}

/// Spoils the answer in the way of the fault's number; 0 is none.
fn plant(fault: u64, call: &Call, answer: &mut Answer) {
    let said = &mut answer.said;
    match fault {
        // The leaf before the one that was found.
        1 if matches!(call, Call::Lookup(_)) && said[0] == 0 && said[1] > 1 => said[1] -= 1,
        // A refusal has another place.
        2 if said[0] == 17 => said[1] += 8,
        // Of two faults at one byte the higher number is given.
        3 if said[0] == 11 && answer.state[2] > 0 => said[0] = 12,
        // A record is not written.
        4 if matches!(call, Call::Whole { .. }) && answer.table.len() == 2 => answer.table.truncate(1),
        // A number of the state is another in the gap.
        5 if answer.state.len() > 14 && answer.state[0] == 1 && answer.state[5] == 2 => answer.state[14] ^= 1,
        // A byte of the work area is not stored.
        6 if answer.work.len() > 3 => answer.work.truncate(3),
        // A state outside the ranges is worked on.
        7 if said[0] == 2 => said[0] = 0,
        // Number 3 has the place of the byte before.
        8 if said[0] == 3 => said[1] -= 1,
        // The program ends.
        9 if said[0] == 13 => std::process::exit(1),
        // Nothing more is written.
        10 if said[0] == 14 => std::thread::sleep(std::time::Duration::from_secs(3600)),
        // What is not a number, an infinity or below zero is past the list.
        11 if said[0] == 26 => said[0] = 24,
        // A refused mark comes back without its page.
        14 if said[0] != 0 => said[PAGE] = 0,
        _ => (),
    }
}
