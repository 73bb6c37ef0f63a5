//! Calls on states made by hand, on states of a reading with a number changed, and lookups in tables of any contents.

use super::bytes::{self, Written};
use super::grow::{self, Wish};
use super::maker;
use super::random::Random;
use super::reading;
use super::seconds;
use super::sessions::{Session, WORK};
use super::stand_in::StandIn;
use super::states::{Made, Meant};
use crate::calls::{Answer, Call, STATE_NUMBERS};
use crate::ranges;
use crate::time::Request;

/// States made by hand, each with calls on it.
pub fn states(session: &mut Session) {
    for _ in 0..session.random.count(1..=4) {
        one_state(session);
    }
}

fn one_state(session: &mut Session) {
    let (bytes, ends) = continuation(session.random);
    let made = maker::make(session.random, &ends);
    let from = session.calls.len();
    session.lend_any_work();
    write_entries(session, &made, &ends);
    // Room for all leaves of a state with many is lent seldom, since each call then costs more.
    let leaves = made.numbers[2] as usize;
    let room = if leaves > 60 && session.random.chance(70) { 2 } else { leaves + session.random.index(3) };
    session.lend_any_table(room);
    let meant = match session.random.below(10) {
        0..=5 => made.whole(),
        6..=7 => made.at_edge(session.random),
        _ => made.broken(session.random),
    };
    doubt(session, &meant);
    session.calls.push(Call::LendState(meant.numbers));
    let lent = session.calls[from..].to_vec();
    if session.random.chance(25) {
        // Calls that need no bytes, on the state as it was made.
        last_calls(session, &[]);
        session.lend_again(&lent);
    }
    let to = if session.random.chance(40) { session.random.pick(&ends) } else { bytes.len() };
    feed_some(session, &bytes[..to], &ends);
    if session.random.chance(60) {
        // The same again in other parts, which has to come to the same.
        session.lend_again(&lent);
        feed_some(session, &bytes[..to], &ends);
    }
    last_calls(session, &bytes[..to]);
}

/// Many states at and past the edges of their ranges, each with a call that only tells whether it is one.
pub fn edges(session: &mut Session) {
    session.lend_work(WORK);
    session.lend_table(6);
    for _ in 0..session.random.count(20..=40) {
        let made = maker::make(session.random, &[8]);
        let meant = if session.random.chance(50) { made.at_edge(session.random) } else { made.broken(session.random) };
        doubt(session, &meant);
        let by_seconds = seconds::call(session.random, 1000, &[]);
        let by_ticks = Call::Lookup(Request::Ticks(0));
        let call = session.random.weighted(&[(80, Call::Feed(Vec::new())), (10, Call::Finish), (10, by_ticks), (10, by_seconds)]);
        session.calls.extend([Call::LendState(meant.numbers), call]);
    }
}

/// The ranges have to say of a state what was meant with it.
fn doubt(session: &mut Session, meant: &Meant) {
    let says = ranges::is_state(&meant.numbers);
    if meant.is_state.is_some_and(|is_state| is_state != says) {
        let not = if says { "" } else { "not " };
        session.doubt = Some(format!("the ranges say that this is {not}a state, which was not meant: {:?}", meant.numbers));
    }
}

/// Bytes that may follow in a segment from some place on, and where boxes and fields end in them.
fn continuation(random: &mut Random) -> (Vec<u8>, Vec<usize>) {
    if random.chance(10) {
        let count = random.count(1..=40);
        let most = random.pick(&[0, 2, 255]);
        return ((0..count).map(|_| random.within(0..=most) as u8).collect(), vec![count.min(4), count.min(8), count]);
    }
    let wish = if random.chance(50) { Wish::deep(random) } else { Wish { levels: 1, entries: (2, 1), skipped: 20, media: 8 } };
    let written = bytes::write(&grow::segment(random, wish));
    let from = match random.below(3) {
        0 => random.pick(&written.leaves).at,
        1 => random.pick(&written.ends),
        _ => random.pick(&written.fields).at,
    };
    let to = written.bytes.len().min(from + 300);
    let mut ends: Vec<usize> = written.ends.iter().filter(|end| **end > from && **end <= to).map(|end| end - from).collect();
    ends.push(to - from);
    (written.bytes[from..to].to_vec(), ends)
}

/// Writes entries where the state may read one back, with sizes and durations that fit it mostly.
fn write_entries(session: &mut Session, made: &Made, ends: &[usize]) {
    let (count, now) = (made.numbers[1], made.numbers[3]);
    for (level, at) in made.levels.iter().enumerate() {
        let [next, _, end, until] = [0, 1, 2, 3].map(|more| made.numbers[at + more]);
        for entry in next.saturating_sub(1)..(next + 2).min(1024) {
            let random = &mut *session.random;
            let (all, any) = (end.wrapping_sub(count) as u32, random.word());
            let size = random.pick(&[all, all, random_end(ends, any), random_end(ends, any), any, 0]);
            let kind = u32::from(random.chance(35)) << 31;
            let (all, small) = (until.wrapping_sub(now) as u32, any & 7);
            let duration = random.pick(&[all, all, small, 0, any]);
            let words = [kind | (size & 0x7fff_ffff), duration, any];
            let bytes = words.iter().flat_map(|word| word.to_be_bytes()).collect();
            session.write_work(12_288 * level + 12 * entry as usize, bytes);
        }
    }
}

fn random_end(ends: &[usize], any: u32) -> u32 {
    ends.get(any as usize % ends.len().max(1)).map_or(8, |end| *end as u32)
}

/// Feeds the bytes in some parts.
fn feed_some(session: &mut Session, bytes: &[u8], ends: &[usize]) {
    let mut cuts = match session.random.below(10) {
        0..=3 => Vec::new(),
        4..=6 => vec![session.random.pick(ends)],
        7..=8 => vec![session.random.index(bytes.len() + 1), session.random.index(bytes.len() + 1)],
        _ => (1..bytes.len().min(20)).collect(),
    };
    cuts.retain(|cut| *cut <= bytes.len());
    session.feed_cut(bytes, cuts);
}

fn last_calls(session: &mut Session, bytes: &[u8]) {
    match session.random.below(8) {
        0..=2 => session.calls.push(Call::Finish),
        3 => {
            let ticks = session.random.number();
            session.calls.extend([Call::Finish, Call::Lookup(Request::Ticks(ticks))]);
        }
        4 => session.calls.push(Call::Start { brand: session.random.word() }),
        5 => session.calls.push(Call::Whole { brand: session.random.word(), segment: bytes.to_vec() }),
        6 => {
            session.calls.push(Call::Finish);
            session.any_seconds();
        }
        _ => session.disturb(),
    }
}

/// A reading, its state with a number changed, and the rest of the segment on that.
pub fn states_of_a_reading(session: &mut Session) {
    let material = reading::right_material(session.random);
    session.lend(material.written.leaves.len() + 1);
    session.lend_work(WORK);
    reading::start(session, &material);
    let read = place_in(session.random, &material.written);
    session.feed(&material.written.bytes[..read]);
    if let Some(mut numbers) = state_after(&session.calls) {
        for _ in 0..session.random.weighted(&[(25, 0), (50, 1), (25, 2)]) {
            change_a_number(session.random, &mut numbers);
        }
        session.calls.push(Call::LendState(numbers));
    }
    let rest = &material.written.bytes[read..];
    let cuts = if session.random.chance(50) { vec![session.random.index(rest.len() + 1)] } else { Vec::new() };
    session.feed_cut(rest, cuts);
    session.calls.push(Call::Finish);
    session.lookups(&material.written, 2);
}

fn place_in(random: &mut Random, written: &Written) -> usize {
    if random.chance(60) {
        let end = random.pick(&written.ends);
        (end + random.index(3)).min(written.bytes.len())
    } else {
        random.index(written.bytes.len() + 1)
    }
}

/// The state after these calls, as the peer says it.
fn state_after(calls: &[Call]) -> Option<Vec<u64>> {
    let mut stand_in = StandIn::default();
    let answers: Vec<Option<Answer>> = calls.iter().map(|call| stand_in.answer(call)).collect();
    answers.into_iter().flatten().last().map(|answer| answer.state)
}

fn change_a_number(random: &mut Random, numbers: &mut [u64]) {
    if numbers.len() != STATE_NUMBERS {
        return;
    }
    let used: Vec<usize> = (0..STATE_NUMBERS).filter(|at| numbers[*at] != 0).collect();
    let at = if random.chance(80) && !used.is_empty() { random.pick(&used) } else { random.index(STATE_NUMBERS) };
    let (now, other, any) = (numbers[at], random.pick(numbers), random.number());
    let by = random.within(1..=9);
    numbers[at] = random.pick(&[now.wrapping_add(1), now.wrapping_sub(1), now.wrapping_add(by), now.wrapping_sub(by), other, 0, any]);
}

/// Lookups with a state of an accepted finish, in tables of any contents.
pub fn lookups(session: &mut Session) {
    let leaves = session.random.weighted(&[(10, 0), (30, 1), (30, 2), (25, 5), (4, 40), (1, 4096)]);
    let state = maker::accepted(session.random, leaves as u64);
    let scale = state[4];
    session.calls.push(Call::LendState(state));
    session.lend_work(WORK);
    let more = session.random.pick(&[0, 0, 1, 6]);
    session.lend_table(6 * leaves + more);
    for _ in 0..session.random.count(1..=2) {
        in_some_records(session, leaves.min(40), scale);
    }
    if session.random.chance(40) {
        let fewer = session.random.index(6 * leaves + 1);
        session.lend_table(fewer);
        let ticks = session.random.number();
        session.calls.push(Call::Lookup(Request::Ticks(ticks)));
        session.any_seconds();
    }
}

/// Writes records of any contents for so many leaves, and looks up in them.
pub fn in_some_records(session: &mut Session, leaves: usize, scale: u64) {
    let records = some_records(session.random, leaves);
    session.write_table(0, records.clone());
    let covered: Vec<(u64, u64)> = records.chunks(6).map(|record| (record[2], record[3])).collect();
    for _ in 0..session.random.count(2..=6) {
        let ticks = edge_of_records(session.random, &records);
        let by_seconds = seconds::call(session.random, scale, &covered);
        session.calls.extend([Call::Lookup(Request::Ticks(ticks)), by_seconds]);
    }
}

/// Records end to end, overlapping, out of order, past 2^64, of no duration.
fn some_records(random: &mut Random, leaves: usize) -> Vec<u64> {
    let mut records = Vec::new();
    let mut start = random.number();
    for _ in 0..leaves {
        let any = random.number();
        let duration = random.pick(&[0, 1, 2, 10, 1000, u64::MAX, any]);
        records.extend([random.number(), random.number(), start, duration, random.number(), random.number()]);
        start = random.pick(&[start, start.wrapping_add(duration), start.wrapping_add(duration), start.wrapping_sub(5), any]);
    }
    records
}

fn edge_of_records(random: &mut Random, records: &[u64]) -> u64 {
    let any = random.number();
    if records.is_empty() || random.chance(10) {
        return random.pick(&[0, u64::MAX, any]);
    }
    let record = &records[6 * random.index(records.len() / 6)..];
    let end = record[2].wrapping_add(record[3]);
    random.pick(&[record[2], record[2].wrapping_sub(1), record[2].wrapping_add(1), end, end.wrapping_sub(1), end.wrapping_add(1)])
}
