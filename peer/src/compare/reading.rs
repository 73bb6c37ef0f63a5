//! Readings of segments, right and damaged: whole, in one part, and cut into parts.

use super::bytes::{self, Written, WrittenLeaf};
use super::damage;
use super::grow::{self, Wish};
use super::places;
use super::random::Random;
use super::sessions::{Session, WORK};
use super::spoil;
use crate::calls::{Call, STATE_NUMBERS};

/// The most bytes of a part or of a segment that is lent whole.
const PART: usize = 524_288;

/// A segment to be read, and the brand that its reader wants.
pub struct Material {
    pub written: Written,
    pub wanted: u32,
}

/// A segment that is right.
pub fn right_material(random: &mut Random) -> Material {
    let wish = Wish::any(random);
    let segment = grow::segment(random, wish);
    Material { written: bytes::write(&segment), wanted: segment.wanted }
}

/// A segment that was damaged once or twice; it may be right all the same.
pub fn damaged_material(random: &mut Random) -> Material {
    let mut wish = if random.chance(55) { Wish::deep(random) } else { Wish::any(random) };
    let too_deep = random.chance(5);
    if too_deep {
        wish = Wish { levels: 5, entries: (1, 2), skipped: 5, media: 4 };
    }
    let mut segment = grow::segment(random, wish);
    if too_deep && random.chance(30) {
        damage::before_deepest_index(&mut segment, random);
    }
    let (in_tree, in_bytes) = random.weighted(&[(50, (1, 0)), (35, (0, 1)), (8, (1, 1)), (4, (2, 0)), (3, (0, 2))]);
    (0..in_tree).for_each(|_| damage::in_tree(&mut segment, random));
    let mut written = bytes::write(&segment);
    (0..in_bytes).for_each(|_| spoil::in_bytes(&mut written, random));
    written.bytes.truncate(PART);
    let other = random.word();
    let wanted = random.weighted(&[(97, segment.wanted), (2, segment.wanted ^ 1), (1, other)]);
    Material { written, wanted }
}

pub fn right(session: &mut Session) {
    let material = right_material(session.random);
    read_in_some_ways(session, &material, &[(25, 0), (30, 1), (30, 3), (15, 6)]);
}

pub fn damaged(session: &mut Session) {
    let material = damaged_material(session.random);
    read_in_some_ways(session, &material, &[(70, 0), (20, 1), (10, 2)]);
}

/// Boxes of any types with any bodies, some with a wrong size: no segment, but what a reader may be given.
fn random_material(random: &mut Random) -> Material {
    let wanted = u32::from_be_bytes(*b"msdh");
    let mut written = Written::default();
    if random.chance(70) {
        written.bytes.extend(b"\0\0\0\x14stypmsdh\0\0\0\0msdh");
    }
    for _ in 0..random.count(1..=8) {
        let kinds = [*b"styp", *b"sidx", *b"sidx", *b"sidx", *b"moof", *b"mdat", *b"free", *b"traf", random.word().to_be_bytes()];
        let kind = random.pick(&kinds);
        let most = random.pick(&[0, 1, 2, 255]);
        let body: Vec<u8> = (0..random.index(70)).map(|_| random.within(0..=most) as u8).collect();
        let (small, any) = (random.below(80) as u32, random.word());
        let size = random.weighted(&[(80, body.len() as u32 + 8), (10, small), (5, 1), (5, any)]);
        written.bytes.extend(size.to_be_bytes());
        written.bytes.extend(kind);
        written.bytes.extend(body);
    }
    Material { written, wanted }
}

pub fn random(session: &mut Session) {
    let material = random_material(session.random);
    read_in_some_ways(session, &material, &[(90, 0), (10, 1)]);
}

/// One of the largest: as many entries as an index may have, or leaves as a table, or one more; or a long `mdat`.
pub fn large(session: &mut Session) {
    let random = &mut *session.random;
    let segment = match random.below(8) {
        0 | 1 => grow::with_entries(random, 1024),
        2 => grow::with_entries(random, 1025),
        3 => grow::with_leaves(random, 4096),
        4 => grow::with_leaves(random, 4097),
        _ => grow::segment(random, Wish { levels: 2, entries: (3, 2), skipped: 30, media: 60_000 }),
    };
    let material = Material { written: bytes::write(&segment), wanted: segment.wanted };
    session.lend(0);
    session.lend_work(WORK);
    let leaves = material.written.leaves.len();
    let more = session.random.pick(&[0, 1, 5, 6]);
    session.lend_table((6 * leaves + more).min(32_768));
    if session.random.chance(50) {
        whole(session, &material);
    } else {
        start(session, &material);
        let cuts = random_cuts(session.random, &material.written, 4);
        session.feed_cut(&material.written.bytes, cuts);
        session.calls.push(Call::Finish);
    }
    session.lookups(&material.written, 6);
}

/// Reads it one to three times; `lookups` says how often how many follow.
fn read_in_some_ways(session: &mut Session, material: &Material, lookups: &[(u64, usize)]) {
    session.lend(material.written.leaves.len());
    if session.random.chance(10) {
        write_nearly_right(session, &material.written);
    }
    for _ in 0..session.random.weighted(&[(70, 1), (25, 2), (5, 3)]) {
        if session.random.chance(30) {
            whole(session, material);
        } else {
            in_parts(session, material);
        }
        let lookups = session.random.weighted(lookups);
        session.lookups(&material.written, lookups);
    }
}

/// Writes into what is lent what the reading will write there, or nearly.
fn write_nearly_right(session: &mut Session, written: &Written) {
    for index in written.indexes.iter().filter(|index| index.level <= 4) {
        let Some(first) = index.entries.first() else { continue };
        let stored = written.bytes.get(first.entry_at..first.entry_at + 12 * index.entries.len());
        let mut stored = stored.map(<[u8]>::to_vec).unwrap_or_default();
        if !stored.is_empty() && session.random.chance(50) {
            let at = session.random.index(stored.len());
            stored[at] ^= 1;
        }
        session.write_work(12_288 * (index.level - 1), stored);
    }
    let record = |leaf: &WrittenLeaf| {
        let size = leaf.ends.last().map_or(0, |end| end - leaf.at);
        [leaf.at as u64, size as u64, leaf.start, u64::from(leaf.duration), 0, 0]
    };
    let records = written.leaves.iter().flat_map(record).collect();
    session.write_table(0, records);
}

fn whole(session: &mut Session, material: &Material) {
    let segment = material.written.bytes.clone();
    session.calls.push(Call::Whole { brand: material.wanted, segment });
}

pub fn start(session: &mut Session, material: &Material) {
    session.calls.push(Call::Start { brand: material.wanted });
}

/// A reading in parts, mostly with a start before and a finish after it, sometimes with calls at the wrong time.
fn in_parts(session: &mut Session, material: &Material) {
    let bytes = &material.written.bytes;
    match session.random.below(100) {
        0..=2 => (),
        3..=5 => session.calls.push(Call::LendState(state_of_start(material.wanted))),
        _ => start(session, material),
    }
    if session.random.chance(5) {
        // A reading that is left in the middle, at a finish that comes too early or at a new start.
        let read = session.random.index(bytes.len() + 1);
        session.feed(&bytes[..read]);
        if session.random.chance(50) {
            session.calls.push(Call::Finish);
            session.feed(&bytes[read..]);
        }
        start(session, material);
    }
    feed_in_parts(session, &material.written);
    if session.random.chance(92) {
        session.calls.push(Call::Finish);
    }
    if session.random.chance(25) {
        after(session);
    }
}

/// The state that a start gives: docs/STATE.md, at its end.
fn state_of_start(brand: u32) -> Vec<u64> {
    let mut numbers = vec![1, 0, 0, 0, 0, 1, u64::from(brand), 1, 0, 1];
    numbers.resize(STATE_NUMBERS, 0);
    numbers
}

/// Calls after a finish or a refusal.
fn after(session: &mut Session) {
    for _ in 0..session.random.count(1..=2) {
        let count = session.random.index(10);
        let part = session.random.bytes(count);
        match session.random.below(4) {
            0 | 1 => session.feed(&part),
            2 => session.calls.push(Call::Finish),
            _ => session.disturb(),
        }
    }
}

/// Feeds a segment cut nowhere, anywhere, around ends of headers, fields and boxes, or at each byte.
fn feed_in_parts(session: &mut Session, written: &Written) {
    let made = session.calls.len();
    let at_places = session.random.chance(45);
    let cuts = if at_places { places::cuts(session.random, &written.bytes) } else { other_cuts(session.random, written) };
    session.feed_cut(&written.bytes, cuts);
    if at_places {
        session.at_places += session.calls.len() - made;
    }
}

/// Where a segment is cut that is not cut at the places that its bytes show.
fn other_cuts(random: &mut Random, written: &Written) -> Vec<usize> {
    let length = written.bytes.len();
    match random.below(100) {
        0..=34 => Vec::new(),
        35..=69 => {
            let most = random.count(1..=6);
            random_cuts(random, written, most)
        }
        70..=91 => cuts_at_ends(random, written),
        _ if length <= 250 => (1..length).collect(),
        _ => {
            let from = random.index(length);
            (from..length.min(from + 60)).collect()
        }
    }
}

fn random_cuts(random: &mut Random, written: &Written, count: usize) -> Vec<usize> {
    let mut cuts: Vec<usize> = (0..count).map(|_| random.index(written.bytes.len() + 1)).collect();
    if random.chance(20) {
        cuts.extend_from_within(..1);
    }
    cuts
}

/// One byte before, at and after the ends of some headers, fields and boxes, as they were before a damage.
fn cuts_at_ends(random: &mut Random, written: &Written) -> Vec<usize> {
    let fields: Vec<usize> = written.fields.iter().map(|field| field.at + field.width).collect();
    let mut cuts = Vec::new();
    for _ in 0..random.count(1..=4) {
        let ends = if random.chance(50) { &fields } else { &written.ends };
        if !ends.is_empty() {
            let end = random.pick(ends).max(1);
            cuts.extend([end - 1, end, end + 1]);
        }
    }
    cuts.retain(|cut| *cut <= written.bytes.len());
    cuts.sort();
    cuts.dedup();
    cuts
}

#[cfg(test)]
mod tests {
    use super::*;
    use crate::compare::stand_in::StandIn;

    /// Of how many indexes an entry covers that place.
    fn depth(written: &Written, place: usize) -> usize {
        let covers = |index: &&bytes::WrittenIndex| index.entries.iter().any(|entry| (entry.at..entry.end).contains(&place));
        written.indexes.iter().filter(covers).count()
    }

    #[test]
    fn damage_shows_each_number_at_each_depth() {
        let mut random = Random::new(4);
        let mut came = [[0; 6]; 26];
        for _ in 0..40_000 {
            let material = damaged_material(&mut random);
            let mut peer = StandIn::default();
            let numbers = random.pick(&[600, 600, 600, 6]);
            peer.answer(&Call::LendTable { numbers, each: 0 });
            let whole = Call::Whole { brand: material.wanted, segment: material.written.bytes.clone() };
            let said = peer.answer(&whole).expect("it is answered").said;
            came[said[0] as usize][depth(&material.written, said[1] as usize).min(5)] += 1;
        }
        let seldom = |number: usize, depths: &[usize]| depths.iter().any(|depth| came[number][*depth] < 5);
        let anywhere: Vec<usize> = (4..=21).filter(|number| came[*number].iter().sum::<i32>() < 20).collect();
        assert!(anywhere.is_empty(), "seldom: {anywhere:?} in {came:?}");
        let inside: Vec<usize> = [4, 5, 6, 7, 9, 15, 16, 17, 18, 19].into_iter().filter(|number| seldom(*number, &[1, 2, 3, 4])).collect();
        assert!(inside.is_empty(), "seldom inside: {inside:?} in {came:?}");
        // The box of an inner index is covered by the indexes around it.
        let index: Vec<usize> = [10, 11, 12].into_iter().filter(|number| seldom(*number, &[0, 1, 2, 3])).collect();
        assert!(index.is_empty() || index == [12], "seldom in an index: {index:?} in {came:?}");
    }
}
