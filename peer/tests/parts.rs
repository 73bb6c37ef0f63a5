//! Readings in parts: cuttings, entries altered between calls, and tables of other rooms.

mod common;

use common::*;
use peer::calls::{Call, Run};
use peer::ranges::is_state;
use peer::time::Request;

/// What a reading leaves: the answers of the last feed and of finish, the state, the work area and the table.
type Left = ((u64, u64), (u64, u64), Vec<u64>, Vec<u8>, Vec<u64>);

/// Reads the segment in these parts, with room for so many leaves. The answers on the way are the counts.
fn read(parts: &[&[u8]], room: usize) -> Left {
    let mut session = Session::started(room);
    let (mut work, mut table) = (vec![0; WORK], vec![7; 6 * room]);
    let (mut count, mut last) = (0, (0, 0));
    for part in parts {
        let said = session.call(Call::Feed(part.to_vec()));
        write(&mut work, &said.work);
        write(&mut table, &said.table);
        last = first_two(&said);
        if last.0 > 0 {
            break;
        }
        count += part.len() as u64;
        assert_eq!(last, (0, count));
        assert!(is_state(&filled(&said).state), "{:?}", said.state);
    }
    let finish = session.call(Call::Finish);
    let state = filled(&finish).state;
    (last, first_two(&finish), state, work, table)
}

fn write<T: Copy>(lent: &mut [T], runs: &[Run<T>]) {
    for run in runs {
        lent[run.at..run.at + run.now.len()].copy_from_slice(&run.now);
    }
}

/// The segment in parts of a length; the last may be shorter.
fn parts(segment: &[u8], length: usize) -> Vec<&[u8]> {
    segment.chunks(length).collect()
}

#[test]
fn cut_anywhere() {
    for segment in [s(), t(5000), t(4999), [s(), vec![1, 2]].concat(), s()[..150].to_vec()] {
        let whole = read(&[&segment], 256);
        for cut in 0..=segment.len() {
            assert_eq!(read(&[&segment[..cut], &[], &segment[cut..]], 256), whole, "cut at {cut}");
        }
        for length in [1, 3, 5, 16, 17] {
            assert_eq!(read(&parts(&segment, length), 256), whole, "parts of {length}");
        }
    }
}

#[test]
fn vectors_in_parts() {
    for (number, (segment, _)) in vectors().into_iter().enumerate() {
        let whole = read(&[&segment], 3);
        assert_eq!(read(&parts(&segment, 1 + number % 29), 3), whole, "line {}", number + 1);
    }
}

/// Vectors with bytes changed: what they come to does not hang on the parts.
#[test]
fn damaged_vectors_in_parts() {
    let (vectors, mut random) = (vectors(), Random(88_172_645_463_325_252));
    for turn in 0..3000 {
        let mut segment = vectors[random.below(vectors.len())].0.clone();
        for _ in 0..=random.below(3) {
            let at = random.below(segment.len());
            segment[at] = [0, 1, 8, 0x80, 255, segment[random.below(at + 1)]][random.below(6)];
        }
        let whole = read(&[&segment], 256);
        let length = 1 + random.below(40);
        assert_eq!(read(&parts(&segment, length), 256), whole, "turn {turn}, parts of {length}: {segment:?}");
    }
}

#[test]
fn the_whole_reader_does_as_the_calls() {
    for (segment, _) in vectors() {
        let (last, finish, state, work, table) = read(&[&segment], 256);
        let said = Session::new(256).call(Call::Whole { brand: MSDH, segment });
        assert_eq!(first_two(&said), if last.0 > 0 { last } else { finish });
        assert_eq!(filled(&said).state, state);
        let (mut whole_work, mut whole_table) = (vec![0; WORK], vec![7; 6 * 256]);
        write(&mut whole_work, &said.work);
        write(&mut whole_table, &said.table);
        assert!(whole_work == work && whole_table == table);
    }
}

#[test]
fn entries_stand_in_the_work_area() {
    let segment = t(5000);
    let (_, _, _, work, _) = read(&[&segment], 256);
    assert_eq!(work[..12], segment[52..64]);
    assert_eq!(work[12_288..12_312], segment[96..120]);
    let others = work[12..12_288].iter().chain(&work[12_312..]);
    assert!(others.into_iter().all(|byte| *byte == 0));
    // The byte of a fault is stored, and none after it: the fourth byte of an entry of size 0.
    let mut segment = s();
    segment[52..56].copy_from_slice(&[0x80, 0, 0, 0]);
    let said = Session::started(256).call(Call::Feed(segment));
    assert_eq!((first_two(&said), said.state[1]), ((11, 20), Some(56)));
    assert_eq!(said.work, [Run { at: 0, now: vec![0x80] }]);
}

/// S up to a place; then the entry bytes at `at` are altered; then the rest.
fn altered(cut: usize, at: usize, bytes: &[u8]) -> (u64, u64) {
    let mut session = Session::started(256);
    session.feed(&s()[..cut]);
    session.lend(Call::WriteWork { at, bytes: bytes.to_vec() });
    session.feed(&s()[cut..])
}

#[test]
fn altered_entries() {
    // The first entry, before its first byte: size 0, size of all that remains, duration of more than remains.
    assert_eq!(altered(76, 0, &[0, 0, 0, 0]), (12, 76));
    assert_eq!(altered(76, 3, &[120]), (12, 76));
    assert_eq!(altered(76, 4, &[0, 0, 0x13, 0x89]), (12, 76));
    // All that remains as a duration leaves none for the last entry.
    assert_eq!(altered(76, 4, &[0, 0, 0x13, 0x88]), (12, 136));
    // The last entry has to have all that remains.
    assert_eq!(altered(100, 15, &[61]), (12, 136));
    assert_eq!(altered(100, 19, &[1]), (12, 136));
    // An entry that was read back is not looked at again, and other bytes of the area are not looked at.
    assert_eq!(altered(77, 0, &[0; 12]), (0, 196));
    assert_eq!(altered(76, 24, &[9; 1000]), (0, 196));
    // A type bit is used as it reads: an index entry that does not start with `sidx`.
    assert_eq!(altered(76, 0, &[0x80]), (9, 76));
    // An area that is lent anew holds no entries.
    let mut session = Session::started(256);
    session.feed(&s()[..76]);
    session.lend(Call::LendWork { bytes: 60_000, each: 0 });
    assert_eq!(session.feed(&s()[76..]), (12, 76));
}

#[test]
fn altered_entries_that_stand() {
    let mut session = Session::started(256);
    session.feed(&s()[..76]);
    // The SAP word, and durations that sum to as much.
    session.lend(Call::WriteWork { at: 4, bytes: vec![0, 0, 0, 1, 5, 6, 7, 8] });
    session.lend(Call::WriteWork { at: 16, bytes: vec![0, 0, 0x13, 0x87] });
    assert_eq!(session.feed(&s()[76..]), (0, 196));
    assert_eq!(session.finish(), (0, 2));
    assert_eq!(session.call(by_ticks(5000)).said, [0, 1, 76, 60, 5000, 1, 0x0506_0708, 100, 0]);
    assert_eq!(session.call(by_ticks(5001)).said, [0, 2, 136, 60, 5001, 4999, SAP, 2100, 0]);
}

#[test]
fn rooms() {
    let read = |room: usize, cut: usize, later: usize| {
        let mut session = Session::started(room);
        let first = session.feed(&s()[..cut]);
        session.lend(Call::LendTable { numbers: later, each: 0 });
        (first.0, session.feed(&s()[cut..]))
    };
    // At H of the first box of a leaf, the leaf being the place.
    assert_eq!(read(0, 83, 5), (0, (15, 76)));
    assert_eq!(read(0, 84, 0), (15, (15, 76)));
    assert_eq!(read(1, 143, 6), (0, (15, 136)));
    assert_eq!(read(1, 143, 12), (0, (0, 196)));
    // At its last byte, if a shorter table was lent since (R12).
    assert_eq!(read(2, 150, 11), (0, (15, 136)));
    assert_eq!(read(2, 195, 11), (0, (15, 136)));
    assert_eq!(read(2, 195, 12), (0, (0, 196)));
    assert_eq!(read(2, 90, 6), (0, (15, 136)));
}

#[test]
fn a_shorter_table_at_the_last_byte() {
    // The leaf ends in a decode time that falls, or has none of the reference track: 15 goes before both (R2).
    for (traf, number) in [(traf(1, 4), 18), (traf(2, 9), 19)] {
        let entries = [leaf_entry(60, 1), leaf_entry(48, 1)];
        let segment = [styp(), sidx(0, 0, &entries), leaf(5), moof(&[traf])].concat();
        let (most, last) = segment.split_at(segment.len() - 1);
        let mut session = Session::started(2);
        session.feed(most);
        // No record is written for the leaf at whose last byte a fault is met.
        let said = session.clone().call(Call::Feed(last.to_vec()));
        assert_eq!((said.said[0], said.state[2], said.table.len()), (number, Some(1), 0));
        session.lend(Call::LendTable { numbers: 6, each: 0 });
        assert_eq!(session.feed(last), (15, 136));
    }
}

/// What is lent anew or altered when so many bytes were read.
type Change = (usize, Call);

/// Something that a caller may do between two calls.
fn change(random: &mut Random) -> Call {
    let bytes = [vec![0], vec![0x80], vec![0, 0, 0, 60], vec![1, 2, 3, 4, 5, 6, 7, 8, 9, 10, 11, 12]];
    match random.below(5) {
        0 => Call::LendTable { numbers: random.below(40), each: 3 },
        1 if random.below(9) == 0 => Call::LendWork { bytes: WORK + random.below(9), each: 1 },
        _ => Call::WriteWork { at: 12_288 * random.below(3) + random.below(48), bytes: bytes[random.below(4)].clone() },
    }
}

/// Reads the segment with these changes, and cut at these places too; gives the last answer and the state.
fn read_with(segment: &[u8], changes: &[Change], cuts: &[usize]) -> ((u64, u64), Vec<Option<u64>>) {
    let mut session = Session::started(4);
    let mut ends: Vec<usize> = changes.iter().map(|change| change.0).chain(cuts.iter().copied()).chain([segment.len()]).collect();
    ends.sort();
    let (mut from, mut last) = (0, session.call(Call::Feed(Vec::new())));
    for end in ends {
        last = session.call(Call::Feed(segment[from..end].to_vec()));
        if from < end {
            changes.iter().filter(|change| change.0 == end).for_each(|change| session.lend(change.1.clone()));
        }
        from = end;
    }
    (first_two(&last), last.state)
}

/// What altered entries and other tables come to hangs on when they were lent, and not on the other cuts.
#[test]
fn changes_between_any_parts() {
    let (vectors, mut random) = (vectors(), Random(362_436_069));
    let refused = (0..3000).filter(|_| {
        let base = if random.below(2) == 0 { t(5000) } else { vectors[random.below(vectors.len())].0.clone() };
        let mut places: Vec<usize> = (0..2).map(|_| 1 + random.below(base.len())).collect();
        places.dedup();
        let changes: Vec<Change> = places.into_iter().map(|place| (place, change(&mut random))).collect();
        let cuts: Vec<usize> = (0..random.below(9)).map(|_| random.below(base.len())).collect();
        let plain = read_with(&base, &changes, &[]);
        assert_eq!(read_with(&base, &changes, &cuts), plain, "{base:?} {changes:?} {cuts:?}");
        plain.0 .0 == 12 || plain.0 .0 == 15
    });
    assert!(refused.count() > 100);
}

/// A segment of leaves on two levels: so many in each inner index.
fn two_levels(indexes: usize, leaves: usize) -> Vec<u8> {
    let sizes = vec![leaf_entry(60, 1); leaves];
    let inner = |number: usize| [sidx((number * leaves) as u64, 0, &sizes), leaf(7).repeat(leaves)].concat();
    let size = inner(0).len() as u64;
    let top = sidx(0, 0, &vec![index_entry(size, leaves as u64); indexes]);
    [styp(), top, (0..indexes).flat_map(inner).collect()].concat()
}

#[test]
fn no_more_than_4096_leaves() {
    let mut session = Session::started(5000);
    assert_eq!(session.feed(&two_levels(4, 1024)), (0, 20 + 80 + 4 * (32 + 1024 * 72)));
    assert_eq!(session.finish(), (0, 4096));
    let segment = two_levels(17, 241);
    let mut session = Session::started(5000);
    let mut last = (0, 0);
    for part in parts(&segment, 1000) {
        last = session.feed(part);
    }
    assert_eq!(last, (15, segment.len() as u64 - 60));
    assert_eq!(session.state()[..5], [3, segment.len() as u64 - 52, 4096, 15, segment.len() as u64 - 60]);
}

/// A `free` box up to the limit, in large parts; then one byte more.
#[test]
fn past_the_limit() {
    let mut session = Session::started(1);
    session.feed(&[styp(), words(&[LIMIT - 20, 0])].concat());
    let (part, mut left) = (vec![0; 524_288], LIMIT - 28);
    while left > 0 {
        let length = left.min(part.len() as u64);
        left -= length;
        assert_eq!(session.feed(&part[..length as usize]), (0, LIMIT - left));
    }
    assert_eq!(session.state()[..11], [1, LIMIT, 0, 0, 0, 1, u64::from(MSDH), 1, 1, 1, 0]);
    assert_eq!(session.feed(&[0, 0]), (3, LIMIT));
    assert_eq!(session.state()[..5], [3, LIMIT + 1, 0, 3, LIMIT]);
}

/// Material that ends at the limit; the byte after it shows 3 and 21.
#[test]
fn up_to_the_limit() {
    let mut session = Session::started(1);
    let rest = LIMIT - 64 - 48;
    let head = [styp(), sidx(0, 0, &[leaf_entry(LIMIT - 64, 1)]), moof(&[traf(1, 9)]), words(&[rest, 0])].concat();
    let mut count = head.len() as u64;
    session.feed(&head);
    while count < LIMIT {
        let part = vec![0; (LIMIT - count).min(524_288) as usize];
        count += part.len() as u64;
        assert_eq!(session.feed(&part), (0, count));
    }
    assert_eq!(session.clone().finish(), (0, 1));
    assert_eq!(session.feed(&[0]), (3, LIMIT));
}

/// Commands of all kinds over bytes of all kinds: nothing ends in a panic, and what the peer says it finds right.
#[test]
fn any_commands() {
    let mut random = Random(521_288_629);
    let mut session = Session::new(3);
    let mut state = vec![0; 57];
    for _ in 0..20_000 {
        let call = match random.below(9) {
            0 => Call::Start { brand: MSDH },
            1 => Call::Finish,
            2 => by_ticks(random.below(9000) as u64),
            4 => Call::Lookup(Request::Seconds((random.below(9000) as f64 / 500.0 - 1.0).to_bits())),
            3 => Call::Whole { brand: MSDH, segment: t(5000)[..random.below(241)].to_vec() },
            _ => {
                let from = random.below(240);
                Call::Feed(t(5000)[from..from + random.below(241 - from)].to_vec())
            }
        };
        if let Some(said) = session.peer.says(&call) {
            session.call(call);
            state = filled(&said).state;
        }
        let place = random.below(57);
        match random.below(40) {
            0 => state[place] = [0, 1, 2, 3, 4, LIMIT, u64::MAX][random.below(7)],
            1 => session.lend(Call::LendState(vec![1; random.below(64)])),
            2 => session.lend(change(&mut random)),
            3 => session.lend(Call::LendWork { bytes: WORK - random.below(2), each: 0 }),
            _ => continue,
        }
        session.lend(Call::LendState(state.clone()));
    }
}
