//! Order of checks, states put in by hand, lookups over any table, and what the peer finds wrong.

mod common;

use common::*;
use peer::calls::{Answer, Call, Run};
use peer::peer::Peer;

fn made(first: &[u64]) -> Vec<u64> {
    let mut numbers = first.to_vec();
    numbers.resize(57, 0);
    numbers
}

/// With this state lent.
fn by_hand(first: &[u64]) -> Session {
    let mut session = Session::new(2);
    session.lend(Call::LendState(made(first)));
    session
}

#[test]
fn no_state() {
    let mut session = Session::new(2);
    assert_eq!((session.feed(&[1]), session.finish(), session.lookup(5)), ((2, 0), (2, 0), (2, 0)));
    session.lend(Call::LendWork { bytes: WORK - 1, each: 3 });
    assert_eq!((session.feed(&[]), session.finish()), ((1, 0), (2, 0)));
    session.lend(Call::LendState(vec![1; 56]));
    let start = session.call(Call::Start { brand: MSDH });
    assert_eq!((first_two(&start), start.state), ((2, 0), vec![Some(1); 56]));
    assert_eq!(first_two(&session.call(Call::Whole { brand: MSDH, segment: s() })), (2, 0));
}

#[test]
fn kept_refusals() {
    let mut session = Session::started(2);
    session.feed(&s()[..30]);
    assert_eq!(session.finish(), (20, 30));
    assert_eq!((session.feed(&s()[30..]), session.feed(&[]), session.finish(), session.lookup(0)), ((20, 30), (20, 30), (20, 30), (22, 0)));
    session.lend(Call::LendWork { bytes: 10, each: 0 });
    assert_eq!((session.feed(&[]), session.finish()), ((1, 0), (20, 30)));
    session.call(Call::Start { brand: MSDH });
    assert_eq!((session.feed(&[1]), session.finish()), ((1, 0), (20, 0)));
}

#[test]
fn after_the_material() {
    let mut session = Session::started(2);
    assert_eq!((session.feed(&s()), session.feed(&[])), ((0, 196), (0, 196)));
    let mut longer = session.clone();
    assert_eq!((longer.feed(&[5]), longer.finish()), ((21, 196), (21, 196)));
    assert_eq!(longer.state()[..5], [3, 197, 2, 21, 196]);
    assert_eq!((session.finish(), session.feed(&[1]), session.feed(&[]), session.finish()), ((0, 2), (22, 0), (22, 0), (22, 0)));
    session.lend(Call::LendTable { numbers: 11, each: 0 });
    assert_eq!(session.lookup(5000), (25, 0));
}

#[test]
fn outcomes_by_hand() {
    let ended = [2, LIMIT, 4, 1, 1, 0, 0];
    assert_eq!((by_hand(&ended).feed(&[0]), by_hand(&ended).finish()), ((3, LIMIT), (0, 4)));
    assert_eq!(by_hand(&[2, LIMIT - 1, 4, 1, 1, 0, 0]).feed(&[0, 0]), (21, LIMIT - 1));
    assert_eq!(by_hand(&[3, 9, 0, 20, 77]).feed(&[0]), (20, 77));
    assert_eq!(by_hand(&[4, 0, 0, 0, 1, 0, 0]).lookup(9), (24, 0));
    assert_eq!(by_hand(&[4, 0, 3, 0, 1, 0, 0]).lookup(9), (25, 0));
    let mut start = by_hand(&[1, 0, 0, 0, 0, 1, u64::from(MSDH), 1, 0, 1]);
    assert_eq!((start.feed(&s()), start.finish()), ((0, 196), (0, 2)));
    // A brand wanted that is no four bytes is never listed.
    assert_eq!(by_hand(&[1, 0, 0, 0, 0, 1, 1 << 40, 1, 0, 1]).feed(&s()), (8, 0));
}

#[test]
fn lookups_over_any_table() {
    let mut session = by_hand(&[4, 0, 2, 0, 1, 0, 0]);
    session.lend(Call::WriteTable { at: 0, numbers: vec![1, 2, u64::MAX, u64::MAX, 3, 4, 5, 6, 10, 5, 7, 8] });
    assert_eq!(session.call(by_ticks(u64::MAX)).said, [0, 1, 1, 2, u64::MAX, u64::MAX, 3, 4, 0]);
    assert_eq!(session.call(by_ticks(14)).said, [0, 2, 5, 6, 10, 5, 7, 8, 0]);
    assert_eq!((session.lookup(15), session.lookup(9)), ((23, 0), (23, 0)));
    session.lend(Call::WriteTable { at: 2, numbers: vec![10, 0] });
    assert_eq!((session.lookup(10), session.lookup(15), session.lookup(9)), ((0, 2), (24, 0), (23, 0)));
    // At the start of record 1, which covers nothing.
    session.lend(Call::WriteTable { at: 8, numbers: vec![11] });
    assert_eq!((session.lookup(10), session.lookup(11)), ((24, 0), (0, 2)));
}

#[test]
fn a_short_work_area() {
    let mut session = Session::new(2);
    session.lend(Call::LendWork { bytes: WORK - 1, each: 0 });
    for segment in [s(), Vec::new()] {
        let said = session.call(Call::Whole { brand: MSDH, segment });
        assert_eq!((first_two(&said), said.state[..2].to_vec()), ((1, 0), vec![Some(1), Some(0)]));
    }
    session.lend(Call::LendWork { bytes: WORK, each: 0 });
    assert_eq!((session.feed(&s()), session.finish()), ((0, 196), (0, 2)));
}

#[test]
fn a_long_work_area() {
    let mut session = Session::started(2);
    session.lend(Call::LendWork { bytes: WORK + 100, each: 255 });
    let said = session.call(Call::Feed(s()));
    assert!(said.work.iter().all(|run| run.at + run.now.len() <= 24));
    // A byte that is stored as it was is in no run.
    assert!(said.work.len() == 1 && said.work[0].at == 0 && said.work[0].now == s()[52..76]);
    session.call(Call::Start { brand: MSDH });
    assert_eq!(session.call(Call::Feed(s())).work, Vec::<Run<u8>>::new());
}

#[test]
fn asking_changes_nothing() {
    let mut session = Session::started(2);
    session.feed(&s()[..100]);
    let twice = [0, 1].map(|_| session.peer.says(&Call::Feed(s()[100..].to_vec())));
    assert_eq!(twice[0], twice[1]);
    assert!(session.peer.says(&Call::LendState(Vec::new())).is_none());
    assert_eq!((session.feed(&s()[100..]), session.finish()), ((0, 196), (0, 2)));
}

/// The answer to the last of these calls, changed in one way, is found wrong.
#[test]
fn wrong_answers_are_found() {
    let mut session = Session::started(2);
    session.feed(&s()[..76]);
    let call = Call::Feed(s()[76..140].to_vec());
    let right = filled(&session.peer.says(&call).expect("known"));
    let is_right = |answer: &Answer| session.peer.clone().judge(&call, Some(answer)).is_ok();
    assert!(is_right(&right));
    assert!(!is_right(&Answer { said: [0, 141, 0, 0, 0, 0, 0, 0, 0], ..right.clone() }));
    assert!(!is_right(&Answer { work: vec![Run { at: 0, now: vec![1] }], ..right.clone() }));
    assert!(!is_right(&Answer { table: Vec::new(), ..right.clone() }));
    for place in [0, 1, 2, 3, 4, 5, 6, 11, 27, 30, 31, 36, 37, 38, 39, 56] {
        let mut wrong = right.clone();
        wrong.state[place] += 1;
        assert!(!is_right(&wrong), "place {place}");
    }
    assert!(Peer::new().judge(&Call::Finish, None).is_err());
}

/// What must hold of a reading state put in by hand: one in the entries of the top index, and one in a leaf.
#[test]
fn reading_states_by_hand() {
    let in_entries = [1, 60, 1, 0, 0, 1, 7, 2, 1, 3, 20, 80, 2, 1, 0, 1, 1, 0, 0, 1, 3, 0, 0, 3, 0];
    let mut session = by_hand(&in_entries);
    let call = Call::Feed(vec![0, 0, 0, 9]);
    assert!(session.peer.says(&call).is_none());
    assert_eq!((session.clone().finish(), session.clone().lookup(0), session.clone().feed(&[])), ((20, 60), (22, 0), (0, 60)));
    let mut after = made(&in_entries);
    (after[1], after[13], after[21]) = (64, 2, 9);
    let right = Answer { said: [0, 64, 0, 0, 0, 0, 0, 0, 0], state: after, work: vec![Run { at: 15, now: vec![9] }], table: Vec::new() };
    let is_right = |answer: &Answer| session.peer.clone().judge(&call, Some(answer)).is_ok();
    assert!(is_right(&right));
    let refusal = Answer { said: [11, 20, 0, 0, 0, 0, 0, 0, 0], state: made(&[3, 64, 1, 11, 20]), ..right.clone() };
    assert!(is_right(&refusal));
    assert!(!is_right(&Answer { said: [20, 20, 0, 0, 0, 0, 0, 0, 0], state: made(&[3, 64, 1, 20, 20]), ..right.clone() }));
    assert!(!is_right(&Answer { state: made(&[3, 64, 0, 11, 20]), ..refusal.clone() }));
    assert!(!is_right(&Answer { state: made(&[3, 65, 1, 11, 20]), ..refusal.clone() }));
    assert!(!is_right(&Answer { work: vec![Run { at: 15, now: vec![8] }], ..right.clone() }));
    assert!(!is_right(&Answer { work: vec![Run { at: 15, now: vec![9, 9] }], ..right.clone() }));
    assert!(!is_right(&Answer { table: vec![Run { at: 6, now: vec![9] }], ..right.clone() }));
    // The answer is taken over, and the reading goes on from there.
    assert!(session.peer.judge(&call, Some(&right)).is_ok());
    assert_eq!(session.finish(), (20, 64));
}

/// A leaf that is listed from a state made by hand, and answers that no rule allows there.
#[test]
fn leaves_by_hand() {
    let in_leaf = |count: u64, leaves: u64| {
        let mut numbers = made(&[1, count, leaves, 0, 0, 4, 1, 1, 0, 9, 1, 1, 2, 300, 9]);
        numbers[27..38].copy_from_slice(&[100, 200, 9, 0, 2, 1, 1, 5, 5, 1, 200]);
        numbers
    };
    let mut session = Session::new(2);
    session.lend(Call::LendWork { bytes: WORK + 8, each: 0 });
    session.lend(Call::LendState(in_leaf(199, 1)));
    let (call, record) = (Call::Feed(vec![5]), vec![100, 100, 0, 9, 0, 5]);
    let mut after = made(&[1, 200, 2, 9, 5, 3, 1, 1, 0, 9, 1, 1, 2, 300, 9]);
    let right = Answer {
        said: [0, 200, 0, 0, 0, 0, 0, 0, 0],
        state: after.clone(),
        work: Vec::new(),
        table: vec![Run { at: 6, now: record.clone() }],
    };
    let is_right = |answer: &Answer| session.peer.clone().judge(&call, Some(answer)).is_ok();
    assert!(is_right(&right));
    assert!(!is_right(&Answer { table: vec![Run { at: 0, now: record.clone() }], ..right.clone() }));
    assert!(!is_right(&Answer { work: vec![Run { at: WORK, now: vec![5] }], ..right.clone() }));
    // No byte read, more leaves than the room has, another top index, an outcome that no feed has.
    let refused = |count: u64| Answer {
        said: [15, 100, 0, 0, 0, 0, 0, 0, 0],
        state: made(&[3, count, 1, 15, 100]),
        work: Vec::new(),
        table: Vec::new(),
    };
    assert!(is_right(&refused(200)) && !is_right(&refused(199)));
    after[2] = 3;
    assert!(!is_right(&Answer { state: after.clone(), ..right.clone() }));
    (after[2], after[6]) = (2, 7);
    assert!(!is_right(&Answer { state: after, ..right.clone() }));
    assert!(!is_right(&Answer { state: made(&[4, 200, 2, 1, 1, 0, 9]), ..right.clone() }));
    assert!(is_right(&Answer { state: made(&[2, 200, 2, 1, 1, 0, 9]), ..right }));
}

/// Reading states made by hand of which the next byte decides: an altered entry (row 12), and byte 268,435,457 (R2, R15).
#[test]
fn bytes_that_decide() {
    let before_entry = |count: u64, end: u64| [1, count, 1, 5, 0, 3, 1, 1, 0, 9, 2, 1, 2, end, 9, 0, 2, end, 8];
    let entry = |size: u8, duration: u8| Call::WriteWork { at: 12_288, bytes: vec![0, 0, 0, size, 0, 0, 0, duration, 0, 0, 0, 0] };
    let fed = |count: u64, size: u8, duration: u8| {
        let mut session = by_hand(&before_entry(count, count + 10));
        session.lend(entry(size, duration));
        session.peer.says(&Call::Feed(vec![0, 0])).map(|said| first_two(&said))
    };
    assert_eq!((fed(70, 0, 0), fed(70, 10, 0), fed(70, 9, 4)), (Some((12, 70)), Some((12, 70)), Some((12, 70))));
    assert_eq!((fed(70, 9, 3), fed(LIMIT, 9, 3), fed(LIMIT, 9, 4)), (None, Some((3, LIMIT)), Some((12, LIMIT))));
    // In the third byte of the duration of entry 2, in the top index and in an index of level 2.
    let in_entry = [2, 2, 0, 1, 1, 0, 0, 2, 3, 0, 0, 1, 0];
    let top = [&[1, LIMIT, 0, 0, 0, 1, 7, 2, 1, 3, 20, 80][..], &in_entry].concat();
    let said = by_hand(&top).call(Call::Feed(vec![9, 9]));
    assert_eq!((first_two(&said), said.work), ((3, LIMIT), vec![Run { at: 30, now: vec![9] }]));
    assert_eq!(said.state[..6], [3, LIMIT + 1, 0, 3, LIMIT, 0].map(Some));
    let mut inner = made(&[1, LIMIT, 0, 0, 0, 5, 1, 1, 0, 9, 1, 1, 2, 300, 9]);
    inner[31..34].copy_from_slice(&[2, 64, 200]);
    inner[34..47].copy_from_slice(&in_entry);
    let said = by_hand(&inner).call(Call::Feed(vec![9, 9]));
    assert_eq!((first_two(&said), said.work), ((3, LIMIT), vec![Run { at: 12_318, now: vec![9] }]));
    // Elsewhere nothing is stored.
    assert_eq!(by_hand(&[1, LIMIT, 0, 0, 0, 1, 7, 1, 1, 1]).call(Call::Feed(vec![9])).work, []);
}
