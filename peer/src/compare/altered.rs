//! Readings during which what is lent is changed: stored entries altered, tables of other rooms.

use super::by_hand;
use super::bytes::{self, Covered, Written, WrittenIndex};
use super::damage;
use super::grow::{self, Wish};
use super::random::Random;
use super::reading::{self, Material};
use super::sessions::{Session, WORK};
use crate::calls::Call;

/// How many bytes of the work area a level has.
const LEVEL: usize = 12_288;

/// Something that happens to the work area when so many bytes were fed.
struct Change {
    when: usize,
    at: usize,
    bytes: Vec<u8>,
}

/// A reading in which entries are altered after they were stored.
pub fn entries(session: &mut Session) {
    let material =
        if session.random.chance(75) { reading::right_material(session.random) } else { reading::damaged_material(session.random) };
    session.lend(material.written.leaves.len());
    session.lend_work(WORK);
    reading::start(session, &material);
    let mut changes = Vec::new();
    for _ in 0..session.random.count(1..=2) {
        changes.extend(some_change(session.random, &material.written));
    }
    feed_with(session, &material, changes);
    session.calls.push(Call::Finish);
    session.lookups(&material.written, 2);
}

/// Feeds the segment, with the changes where they come and some cuts between.
fn feed_with(session: &mut Session, material: &Material, mut changes: Vec<Change>) {
    changes.sort_by_key(|change| change.when);
    let bytes = &material.written.bytes;
    let mut from = 0;
    for change in changes {
        let to = change.when.min(bytes.len());
        let between = session.random.count(from..=to);
        let cuts = if session.random.chance(30) { vec![between - from] } else { Vec::new() };
        session.feed_cut(&bytes[from..to], cuts);
        session.write_work(change.at, change.bytes);
        from = to;
    }
    session.feed_cut(&bytes[from..], Vec::new());
}

/// One or two entries of an index, altered at a time when they are stored.
fn some_change(random: &mut Random, written: &Written) -> Vec<Change> {
    let stored: Vec<&WrittenIndex> = written.indexes.iter().filter(|index| !index.entries.is_empty() && index.level <= 4).collect();
    if stored.is_empty() {
        return Vec::new();
    }
    let index = random.pick(&stored);
    let number = random.index(index.entries.len());
    let when = time_of_change(random, written, index, number);
    let mut entries: Vec<[u32; 3]> = index.entries.iter().map(|entry| entry_words(written, entry)).collect();
    let touched = alter(random, written, index, number, &mut entries);
    let at = |number: usize| LEVEL * (index.level - 1) + 12 * number;
    let spelled = |words: [u32; 3]| words.iter().flat_map(|word| word.to_be_bytes()).collect();
    touched.into_iter().map(|number| Change { when, at: at(number), bytes: spelled(entries[number]) }).collect()
}

/// Mostly between the end of the index and the entry's first byte; else anywhere, also after it.
fn time_of_change(random: &mut Random, written: &Written, index: &WrittenIndex, number: usize) -> usize {
    let (low, high) = (index.end, index.entries[number].at.max(index.end));
    match random.below(10) {
        0..=5 => random.count(low..=high),
        6..=7 => high,
        8 => high + 1,
        _ => random.index(written.bytes.len() + 1),
    }
}

/// The three words of an entry as it stands in the segment.
fn entry_words(written: &Written, entry: &Covered) -> [u32; 3] {
    let word = |at: usize| match written.bytes.get(at..at + 4) {
        Some(four) => u32::from_be_bytes([four[0], four[1], four[2], four[3]]),
        None => 0,
    };
    [word(entry.entry_at), word(entry.entry_at + 4), word(entry.entry_at + 8)]
}

/// Alters an entry, or it and its neighbour; gives which ones.
fn alter(random: &mut Random, written: &Written, index: &WrittenIndex, number: usize, entries: &mut [[u32; 3]]) -> Vec<usize> {
    let last = entries.len() - 1;
    let any = random.word();
    let by = random.pick(&[1, 1, 2, 8, any]);
    // All that remains of the index, which is too much while entries follow.
    let all = index.entries.last().map_or(0, |covered| covered.end).saturating_sub(index.entries[number].at);
    let remaining = all as u32 | (entries[number][0] & (1 << 31));
    match random.below(12) {
        0 => entries[number][0] = random.pick(&[0, 1 << 31, u32::MAX, remaining, remaining, entries[number][0].wrapping_add(by)]),
        1 => entries[number][0] = entries[number][0].wrapping_sub(by),
        2 => entries[number][1] = entries[number][1].wrapping_add(by),
        3 => entries[number][1] = random.pick(&[0, entries[number][1].wrapping_sub(by), u32::MAX]),
        4 | 5 => entries[number][0] ^= 1 << 31,
        6 => entries[number][2] = random.pick(&[0, u32::MAX, any]),
        7 => entries[number] = [any, random.word(), random.word()],
        8 | 9 if number < last => {
            // The sum of the sizes stays, and the end between the two is mostly that of a box.
            let (one, next) = (index.entries[number], index.entries[number + 1]);
            let near: Vec<usize> = written.ends.iter().copied().filter(|end| *end > one.at && *end < next.end).collect();
            let end = if near.is_empty() { one.end + 1 } else { random.pick(&near) };
            let moved = (end as u32).wrapping_sub(one.end as u32);
            entries[number][0] = entries[number][0].wrapping_add(moved);
            entries[number + 1][0] = entries[number + 1][0].wrapping_sub(moved);
            return vec![number, number + 1];
        }
        _ if number < last => {
            let moved = random.pick(&[by, entries[number][1]]).min(entries[number][1]);
            entries[number][1] -= moved;
            entries[number + 1][1] = entries[number + 1][1].wrapping_add(moved);
            return vec![number, number + 1];
        }
        _ => {
            let other = random.index(entries.len());
            entries.swap(number, other);
            return vec![number, other];
        }
    }
    vec![number]
}

/// A reading with tables of other rooms between its parts, and with records written over.
pub fn tables(session: &mut Session) {
    let material = reading::right_material(session.random);
    let leaves = material.written.leaves.len();
    session.lend(leaves);
    session.lend_work(WORK);
    session.lend_table(6 * leaves);
    reading::start(session, &material);
    let mut from = 0;
    for _ in 0..session.random.count(1..=3) {
        let leaf = &material.written.leaves[session.random.index(leaves)];
        let near = *leaf.ends.last().unwrap_or(&leaf.at);
        let when = session.random.pick(&[leaf.at, leaf.at + 7, leaf.at + 8, near - 1, near]);
        if when < from {
            continue;
        }
        session.feed(&material.written.bytes[from..when]);
        from = when;
        let listed = material.written.leaves.iter().filter(|leaf| leaf.at < when).count();
        other_table(session, listed, leaves);
    }
    session.feed(&material.written.bytes[from..]);
    session.calls.push(Call::Finish);
    session.lookups(&material.written, 3);
    other_table(session, leaves, leaves);
    session.lookups(&material.written, 2);
    if session.random.chance(50) {
        by_hand::in_some_records(session, leaves.min(40), u64::from(material.written.scale.max(1)));
    }
}

/// A leaf that is at fault at its last byte, with a table lent shortly before that has no room for it.
pub fn leaf_ends(session: &mut Session) {
    let random = &mut *session.random;
    let wish = Wish { levels: random.count(1..=4), entries: (2, 2), skipped: 0, media: 0 };
    let mut segment = grow::segment(random, wish);
    for leaf in segment.leaves() {
        leaf.retain(|piece| piece.is(*b"moof"));
    }
    damage::at_leaf_end(&mut segment, random);
    let material = Material { written: bytes::write(&segment), wanted: segment.wanted };
    let number = random.index(material.written.leaves.len());
    let leaf = &material.written.leaves[number];
    let end = leaf.ends.last().map_or(leaf.at, |end| *end);
    let cut = end.saturating_sub(random.pick(&[1, 1, 2, 8])).max(leaf.at.min(end));
    let room = random.pick(&[number, number, number + 1]);
    session.lend(material.written.leaves.len());
    session.lend_work(WORK);
    session.lend_table(6 * material.written.leaves.len());
    reading::start(session, &material);
    session.feed(&material.written.bytes[..cut]);
    let more = session.random.index(6);
    session.lend_table(6 * room + more);
    session.feed(&material.written.bytes[cut..]);
    session.calls.push(Call::Finish);
}

/// A table with room for about the leaves listed or for all, of any length above a multiple of six.
fn other_table(session: &mut Session, listed: usize, leaves: usize) {
    let records = session.random.pick(&[listed, listed, listed + 1, listed.saturating_sub(1), leaves, leaves]);
    let more = session.random.index(6);
    session.lend_table(6 * records + more);
    if session.random.chance(1) {
        let numbers = session.random.pick(&[24_575, 24_576, 24_582, 32_768]);
        session.lend_table(numbers);
    }
}
