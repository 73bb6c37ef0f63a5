//! The state as numbers: what the peer reads off the tree, and the ranges.

mod common;

use common::*;
use peer::calls::Call;
use peer::ranges::is_state;

/// What the peer says of the state after these bytes.
fn state(bytes: &[u8]) -> Vec<Option<u64>> {
    let mut session = Session::started(256);
    session.feed(&bytes[..bytes.len() - 1]);
    session.call(Call::Feed(bytes[bytes.len() - 1..].to_vec())).state
}

/// These numbers, and then zeros. What is below 0 is not said.
fn numbers(first: &[i64]) -> Vec<Option<u64>> {
    let mut numbers: Vec<Option<u64>> = first.iter().map(|number| u64::try_from(*number).ok()).collect();
    numbers.resize(57, Some(0));
    numbers
}

const BRAND: i64 = 1_836_278_888;

#[test]
fn opening() {
    let session = Session::default().call(Call::Start { brand: MSDH });
    assert_eq!(session.state, numbers(&[1, 0, 0, 0, 0, 1, BRAND, 1, 0, 1]));
    // The second byte of the first size, the third of a type, the sixth of a 64-bit size.
    assert_eq!(state(&s()[..1]), numbers(&[1, 1, 0, 0, 0, 1, BRAND, 1, 0, 2, 0, 2, 0]));
    assert_eq!(state(&s()[..6]), numbers(&[1, 6, 0, 0, 0, 1, BRAND, 1, 0, 3, 0, 20, 1, 0x7374]));
    let wide = large(b"styp", &[0; 12]);
    assert_eq!(state(&wide[..13]), numbers(&[1, 13, 0, 0, 0, 1, BRAND, 1, 0, 4, 0, 0x7374_7970, 2, 0]));
    // In the first compatible brand, and after it.
    assert_eq!(state(&s()[..18]), numbers(&[1, 18, 0, 0, 0, 1, BRAND, 2, -1, 2, 0, 20, 3, 0, 1, 0x6d73]));
    assert_eq!(state(&s()[..20]), numbers(&[1, 20, 0, 0, 0, 1, BRAND, 1, 1, 1]));
    // In a skipped body.
    let skipped = [styp(), boxed(b"free", &[0; 5])].concat();
    assert_eq!(state(&skipped[..30]), numbers(&[1, 30, 0, 0, 0, 1, BRAND, 2, 1, 1, 33]));
}

#[test]
fn index() {
    let index = |count: usize, rest: &[i64]| {
        let before = [1, count as i64, 0, 0, 0, 1, BRAND, 2, 1, 3, 20, 76];
        assert_eq!(state(&s()[..count]), numbers(&[&before[..], rest].concat()), "{count} bytes");
    };
    index(28, &[1, 1, -1, -1, -1, -1, -1, 0, 0]);
    index(30, &[1, 2, 0, -1, -1, -1, -1, 1, 0]);
    index(38, &[1, 4, 0, 1, -1, -1, -1, 1, 0]);
    index(47, &[1, 6, 0, 1, 1000, 5000, -1, 0, 0]);
    index(49, &[1, 7, 0, 1, 1000, 5000, 0, 0, 0]);
    index(52, &[2, 1, 0, 1, 1000, 5000, 0, 0, 2, 0, 0, 3, 0]);
    index(67, &[2, 1, 0, 1, 1000, 5000, 0, 1, 2, 60, 2000, 0, 0]);
    index(70, &[2, 2, 0, 1, 1000, 5000, 0, 1, 2, 120, 2000, 1, 0]);
    index(75, &[2, 3, 0, 1, 1000, 5000, 0, 1, 2, 120, 5000, 0, 0x90_0000]);
}

#[test]
fn gap() {
    let segment = [styp(), sidx(5000, 20, &[leaf_entry(60, 10)]), boxed(b"free", &[0; 4]), boxed(b"free", &[]), leaf(5)].concat();
    let before = [1, 0, 0, 5000, 0, 2, 1, 1000, 5000, 10, 0, 1, 144, 5010, 84];
    let with_count = |count: i64, rest: &[i64]| {
        let mut expected = [&before[..], rest].concat();
        expected[1] = count;
        assert_eq!(state(&segment[..count as usize]), numbers(&expected), "{count} bytes");
    };
    with_count(64, &[1, 1]);
    with_count(67, &[1, 2, 64, 0, 0]);
    with_count(72, &[2, 76]);
    with_count(76, &[1, 1]);
    let expected = [1, 84, 0, 5000, 0, 3, 1, 1000, 5000, 10, 1, 0, 1, 144, 5010];
    assert_eq!(state(&segment[..84]), numbers(&expected));
}

/// S at these places of its second leaf, which starts at 136.
#[test]
fn leaf_of_s() {
    let mut stage = vec![4, 1, 1000, 5000, 5000, 1, 2, 2, 196, 10000];
    stage.resize(22, 0);
    stage.extend([136, 196, 10000, SAP as i64]);
    let second = |count: usize, rest: &[i64]| {
        let before = [1, count as i64, 1, 7000, 100];
        assert_eq!(state(&s()[..count]), numbers(&[&before[..], &stage, rest].concat()), "{count} bytes");
    };
    let entry = [1, 136, 1, 7000, 100, 3, 1, 1000, 5000, 5000, 1, 1, 2, 196, 10000];
    assert_eq!(state(&s()[..136]), numbers(&entry));
    second(137, &[1, 0, 0, -1, -1, 2, 136, 2, 0]);
    second(144, &[2, -1, 0, -1, -1, 2, 184, 1, 0, -1, -1, 1]);
    let moof = [2, -1, 0, -1, -1, 2, 184, 2, 0, -1, -1, 2, 144, 184];
    second(152, &[&moof[..], &[1, 1, 0, 0, -1, -1, 1]].concat());
    second(160, &[&moof[..], &[2, -1, -1, 0, -1, -1, 3, 1, 168, 0, 3, 0]].concat());
    second(167, &[&moof[..], &[2, -1, -1, 0, -1, -1, 3, 2, 168, 0, 0, 0]].concat());
    second(168, &[&moof[..], &[1, 2, 1, 0, -1, -1, 1]].concat());
    second(176, &[&moof[..], &[2, 2, 1, 0, -1, -1, 3, 3, 168, 184, 0, 0]].concat());
    second(177, &[&moof[..], &[2, 2, 1, 0, -1, -1, 3, 4, 168, 0, 2, 0]].concat());
    second(183, &[&moof[..], &[2, 2, 1, 0, -1, -1, 3, 5, 168, 0, 0, 8]].concat());
    second(184, &[1, 1, 1, 2100, 2100, 1]);
    second(193, &[2, 1, 1, 2100, 2100, 1, 196]);
    assert_eq!(state(&s()), numbers(&[2, 196, 2, 1, 1000, 5000, 5000]));
}

#[test]
fn inside_a_traf() {
    // A long `tfhd`, a skipped box, and a second `traf` after a decode time.
    let long = [boxed(b"tfhd", &words(&[0, 1, 0])), boxed(b"free", &[0; 2]), tfdt(5)].concat();
    let segment = with_leaf(&moof(&[long, traf(1, 6)]));
    let at = |count: usize| state(&segment[..count])[31..].to_vec();
    let rest = |numbers_said: &[i64]| numbers(numbers_said)[..26].to_vec();
    let first_traf = [2, -1, 0, -1, -1, 2, 166, 2, 0, -1, -1, 2, 72, 126];
    assert_eq!(at(98), rest(&[&first_traf[..], &[2, -1, -1, 0, -1, -1, 2, 100, 1]].concat()));
    assert_eq!(at(109), rest(&[&first_traf[..], &[2, 2, 1, 0, -1, -1, 1, 110]].concat()));
    let second_traf = [2, -1, -1, -1, -1, 2, 166, 2, 1, 5, 5, 2, 126, 166];
    assert_eq!(at(134), rest(&[&second_traf[..], &[1, 1, 0, 1, 5, 5, 1]].concat()));
}

#[test]
fn inner_index() {
    let mut before = vec![1, 0, 0, 5000, 0, 5, 1, 1000, 5000, 5000, 1, 1, 1, 240, 10000];
    before.resize(27, 0);
    before.extend([64, 240, 10000, SAP as i64]);
    let inner = |count: usize, rest: &[i64]| {
        let mut expected = [&before[..], rest].concat();
        expected[1] = count as i64;
        assert_eq!(state(&t(5000)[..count]), numbers(&expected), "{count} bytes");
    };
    inner(65, &[1, 2, 64, 2, 0]);
    inner(72, &[2, 64, 120, 1, 1, -1, -1, -1, -1, -1, 0, 0]);
    inner(100, &[2, 64, 120, 2, 2, 0, 1, 1000, 5000, 0, 0, 2, 60, 0, 3, 0]);
    let entry = [1, 120, 0, 5000, 0, 3, 1, 1000, 5000, 5000, 2, 1, 1, 240, 10000, 0, 2, 240, 10000];
    assert_eq!(state(&t(5000)[..120]), numbers(&entry));
}

/// Whether the numbers are a state when one of them is another.
fn changed(state: &[u64], place: usize, number: u64) -> bool {
    let mut state = state.to_vec();
    state[place] = number;
    is_state(&state)
}

#[test]
fn ranges_of_outcomes() {
    let made = |first: &[i64]| -> Vec<u64> { numbers(first).into_iter().flatten().collect() };
    assert!(!is_state(&made(&[])) && !is_state(&[]) && !is_state(&made(&[5])));
    let start = made(&[1, 0, 0, 0, 0, 1, BRAND, 1, 0, 1]);
    assert!(is_state(&start) && !is_state(&start[..56]) && !is_state(&[start.clone(), vec![0]].concat()));
    assert!(changed(&start, 1, LIMIT) && !changed(&start, 1, LIMIT + 1));
    assert!(changed(&start, 2, 4096) && !changed(&start, 2, 4097));
    assert!(changed(&start, 3, u64::MAX) && changed(&start, 6, u64::MAX) && changed(&start, 8, 1) && !changed(&start, 8, 2));
    assert!(!changed(&start, 10, 1) && !changed(&start, 56, 1));
    let refused = made(&[3, 9, 0, 3, 5]);
    assert!(is_state(&refused) && changed(&refused, 1, LIMIT + 1) && !changed(&refused, 1, LIMIT + 2));
    assert!(!changed(&refused, 3, 2) && changed(&refused, 3, 21) && !changed(&refused, 3, 22) && changed(&refused, 4, u64::MAX));
    let accepted = made(&[4, 0, 0, 0, 1, 7, 8]);
    assert!(is_state(&accepted) && changed(&accepted, 0, 2) && !changed(&accepted, 0, 3));
    assert!(!changed(&accepted, 4, 0) && !changed(&accepted, 4, 1 << 32) && !changed(&accepted, 3, 1 << 32));
    assert!(changed(&accepted, 5, u64::MAX - 8) && !changed(&accepted, 5, u64::MAX - 7) && !changed(&accepted, 7, 1));
}

/// The state after so many bytes, what is not said being 0.
fn read_to(segment: &[u8], count: usize) -> Vec<u64> {
    let mut session = Session::started(256);
    session.feed(&segment[..count]);
    session.state()
}

/// Which of these changes, each a place and a number, leave a state.
fn left(state: &[u64], changes: &[(usize, u64)]) -> Vec<bool> {
    assert!(is_state(state));
    changes.iter().map(|(place, number)| changed(state, *place, *number)).collect()
}

#[test]
fn ranges_of_the_opening() {
    let in_kind = read_to(&s(), 6);
    assert_eq!(left(&in_kind, &[(12, 0), (13, 0xffff), (10, LIMIT)]), [true; 3]);
    assert_eq!(left(&in_kind, &[(12, 2), (12, 4), (13, 0x1_0000), (10, LIMIT + 1)]), [false; 4]);
    let in_time = read_to(&s(), 41);
    assert_eq!(in_time[12..14], [1, 5]);
    // `wide`, a time of 8 bytes; a timescale of 0 once it was read; a count has 2 bytes.
    assert_eq!(left(&in_time, &[(14, 1), (16, 0), (13, 8)]), [true, false, false]);
    let in_sap = read_to(&s(), 60);
    assert_eq!(in_sap[12..14], [2, 3]);
    assert_eq!(left(&in_sap, &[(21, 1 << 31), (22, 1 << 32), (20, 1024)]), [true; 3]);
    assert_eq!(left(&in_sap, &[(21, (1 << 31) + 1), (22, (1 << 32) + 1), (20, 1025), (19, 2)]), [false; 4]);
}

#[test]
fn ranges_of_the_material() {
    let before_entry = read_to(&s(), 136);
    assert_eq!(left(&before_entry, &[(3, 10000), (3, 10001), (11, 2)]), [true, false, false]);
    let in_leaf = read_to(&s(), 190);
    assert_eq!(left(&in_leaf, &[(11, 2), (27, 196), (29, 7000)]), [true; 3]);
    assert_eq!(left(&in_leaf, &[(11, 3), (27, 197), (29, 10001), (29, 6999)]), [false; 4]);
    // The body of an inner index on level 4, and on level 5, which there is not.
    let mut inner = read_to(&t(5000), 72);
    inner[10] = 3;
    inner.copy_within(11..15, 15);
    inner.copy_within(11..15, 19);
    assert_eq!(left(&inner, &[(14, 10001), (14, 9999), (22, 10001), (23, 1)]), [true, false, false, false]);
    inner[10] = 4;
    inner.copy_within(11..15, 23);
    assert!(!is_state(&inner));
}
