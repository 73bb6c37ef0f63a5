//! A feed on a reading state that was put in by hand. What came before such a state is not known, so what the feed comes to can be said
//! only where the next byte decides it. For the rest there is what must hold: the rules leave most of what is lent as it was.

use crate::calls::{Answer, Run, SAID, STATE_NUMBERS};
use crate::faults::Fault;
use crate::lent::{entry_place, room, Area, Store, RECORD, WORK};
use crate::ranges::is_state;
use crate::segment::Slot;
use crate::state::{ENDED, READING, REFUSED};
use crate::tree::LIMIT;

/// What was lent with the feed.
pub struct Lent<'a> {
    pub state: &'a [u64],
    pub work: &'a [u8],
    pub table: &'a [u64],
}

/// The stage's tags.
const OPENING: u64 = 1;
const ENTRY: u64 = 3;
const INNER: u64 = 5;

/// The fault of the next byte, where the state tells it: an entry starts there that was altered, or it is byte 268,435,457. An altered
/// entry goes before (R2).
pub fn next_fault(lent: &Lent) -> Option<Fault> {
    let count = lent.state[1];
    if lent.state[5] == ENTRY && next_entry_is_altered(lent) {
        return Some(Fault { at: count, number: 12, place: count });
    }
    (count == LIMIT).then_some(Fault { at: LIMIT, number: 3, place: LIMIT })
}

/// Row 12, on the next entry of the innermost index.
fn next_entry_is_altered(lent: &Lent) -> bool {
    let level = lent.state[10];
    let innermost = 11 + 4 * (level as usize - 1);
    let [next, count, end, until] = std::array::from_fn(|k| lent.state[innermost + k]);
    let slot = Slot::of(&Area::new(lent.work).entry(level, next as usize), lent.state[1], lent.state[3]);
    slot.is_altered(end, until, next + 1 == count)
}

/// Where the next byte is stored, if it is an entry byte (R15).
pub fn next_store(lent: &Lent, byte: u8) -> Option<Store> {
    let (sidx, level) = match (lent.state[5], &lent.state[6..], &lent.state[31..]) {
        (OPENING, [_, 2, _, 3, _, _, sidx @ ..], _) => (sidx, 1),
        (INNER, _, [2, _, _, sidx @ ..]) => (sidx, lent.state[10] + 1),
        _ => return None,
    };
    let [2, part, _, _, _, _, _, next, _, _, _, more, ..] = sidx else {
        return None;
    };
    let at = 12 * next + 4 * (part - 1) + (3 - more);
    Some(Store { at: lent.state[1], place: entry_place(level, at), byte })
}

/// Tells what is wrong with the answer to a feed of this part, which is not empty, on a reading state inside the ranges.
pub fn wrong(lent: &Lent, part: &[u8], answer: &Answer) -> Option<String> {
    if answer.state.len() != STATE_NUMBERS || !is_state(&answer.state) {
        return Some(format!("the state handed back is outside the ranges: {:?}", answer.state));
    }
    let read = answer.state[1].checked_sub(lent.state[1]).filter(|read| 1 <= *read && *read <= part.len() as u64);
    let Some(came) = read.and_then(|read| part.get(..usize::try_from(read).ok()?)) else {
        return Some(format!("the count went from {} to {} with {} bytes", lent.state[1], answer.state[1], part.len()));
    };
    wrong_answer(came.len() == part.len(), answer)
        .or_else(|| wrong_stay(lent, answer))
        .or_else(|| wrong_table(lent, answer))
        .or_else(|| wrong_work(lent, came, answer))
}

/// The answer and the state have to tell the same; `all` is whether all bytes were read.
fn wrong_answer(all: bool, answer: &Answer) -> Option<String> {
    let [number, place, rest @ ..] = answer.said;
    let (tag, count) = (answer.state[0], answer.state[1]);
    let tells = match number {
        0 => all && place == count && (tag == READING || tag == ENDED),
        3 => place == LIMIT && count == LIMIT + 1,
        // Byte 268,435,457 gives 12 only where an altered entry starts at it (R2).
        12 => count <= LIMIT || place == LIMIT,
        21 => count.checked_sub(1) == Some(place) && count <= LIMIT,
        4..=19 => count <= LIMIT,
        _ => false,
    };
    let kept = number == 0 || (tag == REFUSED && answer.state[3..5] == [number, place]);
    (!tells || !kept || rest != [0; SAID - 2]).then(|| format!("answer {:?} with the state {:?}", answer.said, answer.state))
}

/// The brand wanted and what the top index said stay.
fn wrong_stay(lent: &Lent, answer: &Answer) -> Option<String> {
    let (was, is) = (lent.state, answer.state.as_slice());
    let stays = match (was[5], is[0], is[5]) {
        (_, REFUSED, _) | (OPENING, ENDED, _) => true,
        (_, ENDED, _) => was[6..10] == is[3..7],
        (OPENING, _, OPENING) => was[6] == is[6],
        (OPENING, _, _) => true,
        (_, _, OPENING) => false,
        _ => was[6..10] == is[6..10],
    };
    (!stays).then(|| format!("the brand or what the top index said went from {was:?} to {is:?}"))
}

/// Only the records of the leaves that were listed since are written, and only where there is room.
fn wrong_table(lent: &Lent, answer: &Answer) -> Option<String> {
    let (was, is) = (lent.state[2], answer.state[2]);
    if is < was || is > was.max(room(lent.table.len())) {
        return Some(format!("the leaves went from {was} to {is} in a table of {} numbers", lent.table.len()));
    }
    let (from, to) = (was as usize * RECORD, is as usize * RECORD);
    let inside = answer.table.iter().all(|run| from <= run.at && run.at.saturating_add(run.now.len()) <= to);
    (!inside || !are_runs(lent.table, &answer.table)).then(|| format!("leaves {was} to {is}, and the table: {:?}", answer.table))
}

/// Only bytes that came are stored, each once at most, and none past the four parts.
fn wrong_work(lent: &Lent, came: &[u8], answer: &Answer) -> Option<String> {
    let changed = || answer.work.iter().flat_map(|run| &run.now);
    let inside = answer.work.iter().all(|run| run.at.saturating_add(run.now.len()) <= WORK);
    let mut left = [0usize; 256];
    came.iter().for_each(|byte| left[usize::from(*byte)] += 1);
    let stored = changed().all(|byte| {
        let left = &mut left[usize::from(*byte)];
        let any = *left > 0;
        *left = left.saturating_sub(1);
        any
    });
    (!inside || !stored || !are_runs(lent.work, &answer.work))
        .then(|| format!("{} bytes came, and the work area: {:?}", came.len(), answer.work))
}

/// Whether these are runs in which nothing is as it was, as long as they can be.
pub fn are_runs<T: PartialEq>(before: &[T], runs: &[Run<T>]) -> bool {
    let changed = runs.iter().all(|run| {
        let was = run.at.checked_add(run.now.len()).and_then(|end| before.get(run.at..end));
        was.is_some_and(|was| was.iter().zip(&run.now).all(|(was, now)| was != now))
    });
    changed && runs.windows(2).all(|two| two[0].at + two[0].now.len() < two[1].at)
}
