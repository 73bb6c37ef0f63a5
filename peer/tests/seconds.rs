//! A time in seconds (R20): exact products, the edges of number 26, the order of checks, marks, and the calls in their binary form.

mod common;

use common::*;
use peer::calls::{Answer, Call, Source};
use peer::time::{Mark, Request};

const SIGN: u64 = 1 << 63;
const INFINITY: u64 = 0x7ff << 52;

/// An accepted state with this timescale, and records of these starts and durations in the table.
fn listed(scale: u64, leaves: &[(u64, u64)]) -> Session {
    let mut session = Session::new(leaves.len());
    let mut state = vec![4, 0, leaves.len() as u64, 0, scale, 0, 0];
    state.resize(57, 0);
    session.lend(Call::LendState(state));
    let records = leaves.iter().flat_map(|(start, duration)| [1, 2, *start, *duration, 3, 4]).collect();
    session.lend(Call::WriteTable { at: 0, numbers: records });
    session
}

/// S after it was read.
fn read_s() -> Session {
    let mut session = Session::new(2);
    session.call(Call::Whole { brand: MSDH, segment: s() });
    session
}

#[test]
fn seconds_in_s() {
    let mut session = read_s();
    let found = [0.0, -0.0, 4.999, 5.0, 5.25, 6.9999999, 7.0, 9.999, 10.0, 1e300].map(|seconds| session.seconds(seconds));
    let expected = [(23, 0), (23, 0), (23, 0), (0, 1), (0, 1), (0, 1), (0, 2), (0, 2), (24, 0), (24, 0)];
    assert_eq!(found, expected);
    // The neighbours of 5, 7 and 10, which are whole ticks themselves.
    let around = |seconds: f64| [seconds.to_bits() - 1, seconds.to_bits(), seconds.to_bits() + 1];
    assert_eq!(around(5.0).map(|bits| session.bits(bits)), [(23, 0), (0, 1), (0, 1)]);
    assert_eq!(around(7.0).map(|bits| session.bits(bits)), [(0, 1), (0, 2), (0, 2)]);
    assert_eq!(around(10.0).map(|bits| session.bits(bits)), [(0, 2), (24, 0), (24, 0)]);
    assert_eq!(session.call(Call::Lookup(Request::Seconds(7f64.to_bits()))).said, [0, 2, 136, 60, 7000, 3000, SAP, 2100, 0]);
    assert_eq!(session.call(Call::Lookup(Request::Seconds(4f64.to_bits()))).said, [23, 0, 0, 0, 0, 0, 0, 0, 0]);
}

/// The leaf of these seconds, and the one of their product with the timescale rounded to a double first.
fn exact_and_rounded(scale: u64, leaves: &[(u64, u64)], seconds: f64) -> [(u64, u64); 2] {
    let mut session = listed(scale, leaves);
    [session.seconds(seconds), session.lookup((seconds * scale as f64) as u64)]
}

/// The doubles that are written 8.2 and 0.03 lie below these numbers, and so before the edges at 8,200 and 2,700; their products round up
/// to the edges.
#[test]
fn rounding_up_gives_the_leaf_behind() {
    assert_eq!(exact_and_rounded(1000, &[(0, 8200), (8200, 1000)], 8.2), [(0, 1), (0, 2)]);
    assert_eq!(exact_and_rounded(1000, &[(8200, 1000)], 8.2), [(23, 0), (0, 1)]);
    assert_eq!(exact_and_rounded(1000, &[(0, 8200)], 8.2), [(0, 1), (24, 0)]);
    assert_eq!(exact_and_rounded(90_000, &[(0, 2700), (2700, 1000)], 0.03), [(0, 1), (0, 2)]);
    // One unit more lies behind the edge.
    let next = f64::from_bits(8.2f64.to_bits() + 1);
    assert_eq!(exact_and_rounded(1000, &[(0, 8200), (8200, 1000)], next), [(0, 2), (0, 2)]);
}

/// 2^53 + 133 is odd and a multiple of 125, so that it is the product of a double and 1,000, but no double itself.
#[test]
fn rounding_down_gives_the_leaf_before() {
    let edge = (1 << 53) + 133;
    let seconds = (edge / 125) as f64 / 8.0;
    assert_eq!(edge % 125, 0);
    assert_eq!(exact_and_rounded(1000, &[(0, edge), (edge, 9)], seconds), [(0, 2), (0, 1)]);
    assert_eq!(exact_and_rounded(1000, &[(0, edge), (edge, 0)], seconds), [(24, 0), (0, 1)]);
}

#[test]
fn the_edges_of_26() {
    let mut session = listed(1, &[(0, 1)]);
    let zeros_and_smallest = [0, SIGN, 1, (1 << 52) - 1, 1 << 52];
    assert_eq!(zeros_and_smallest.map(|bits| session.bits(bits)), [(0, 1); 5]);
    assert_eq!([INFINITY - 1, 1f64.to_bits()].map(|bits| session.bits(bits)), [(24, 0); 2]);
    let below_zero = [SIGN | 1, SIGN | ((1 << 52) - 1), SIGN | 1 << 52, (-1f64).to_bits(), SIGN | (INFINITY - 1)];
    assert_eq!(below_zero.map(|bits| session.bits(bits)), [(26, 0); 5]);
    let no_values = [INFINITY, SIGN | INFINITY, INFINITY | 1, INFINITY | 1 << 51, u64::MAX >> 1, SIGN | INFINITY | 1, u64::MAX];
    assert_eq!(no_values.map(|bits| session.bits(bits)), [(26, 0); 7]);
    // Ticks of the same bits are ticks.
    assert_eq!(no_values.map(|bits| session.lookup(bits)), [(24, 0); 7]);
}

#[test]
fn times_past_64_bits() {
    let power = |exponent: i32| 2f64.powi(exponent).to_bits();
    // A record from 2^64 − 1 on that ends at 2^65 − 2, and before it one that ends at 2^64.
    let mut session = listed(1, &[(u64::MAX, u64::MAX), (u64::MAX - 4095, 4096)]);
    let found = [power(64) - 3, power(64) - 2, power(64) - 1, power(64), power(65) - 1, power(65)].map(|bits| session.bits(bits));
    assert_eq!(found, [(23, 0), (0, 2), (0, 2), (0, 1), (0, 1), (24, 0)]);
}

#[test]
fn products_past_64_bits() {
    let scale = u64::from(u32::MAX);
    // 2^32 seconds are 2^64 − 2^32 ticks, at which the record starts; it ends at 2^64.
    let start = u64::MAX - scale;
    let mut session = listed(scale, &[(start, 1 + scale)]);
    let bits = 2f64.powi(32).to_bits();
    assert_eq!([bits - 1, bits, bits + 1].map(|bits| session.bits(bits)), [(23, 0), (0, 1), (0, 1)]);
    // A second more is 2^64 − 1, its last tick; another one is 2^64 + 2^32 − 2.
    let [last, beyond] = [4_294_967_297.0, 4_294_967_298.0];
    assert_eq!((session.seconds(last), session.seconds(beyond)), ((0, 1), (24, 0)));
    let with_second = |duration: u64| listed(scale, &[(start, 1 + scale), (u64::MAX, duration)]);
    assert_eq!((with_second(scale).seconds(beyond), with_second(scale + 1).seconds(beyond)), ((24, 0), (0, 2)));
    assert_eq!(
        (with_second(scale).seconds(f64::from_bits(beyond.to_bits() - 1)), with_second(u64::MAX).seconds(f64::MAX)),
        ((0, 2), (24, 0))
    );
}

#[test]
fn the_order_of_checks() {
    let bad = f64::NAN;
    // 2 and 22 come before 25, and 25 before 26.
    let mut session = Session::new(2);
    assert_eq!((session.seconds(bad), session.seconds(5.0), session.mark(9, 5.0)), ((2, 0), (2, 0), (2, 0, 9)));
    session.call(Call::Start { brand: MSDH });
    session.lend(Call::LendTable { numbers: 0, each: 0 });
    assert_eq!((session.seconds(bad), session.seconds(5.0), session.mark(9, bad)), ((22, 0), (22, 0), (22, 0, 9)));
    let mut session = read_s();
    session.lend(Call::LendTable { numbers: 11, each: 0 });
    assert_eq!((session.seconds(bad), session.seconds(-1.0), session.mark(9, bad)), ((25, 0), (25, 0), (25, 0, 9)));
    session.lend(Call::LendTable { numbers: 12, each: 0 });
    assert_eq!((session.seconds(bad), session.seconds(-1.0), session.seconds(0.0)), ((26, 0), (26, 0), (24, 0)));
    // A list without leaves.
    let mut empty = listed(1000, &[]);
    assert_eq!((empty.seconds(bad), empty.seconds(-0.0), empty.seconds(1e300)), ((26, 0), (24, 0), (24, 0)));
}

#[test]
fn marks_come_back_with_their_page() {
    let mut session = read_s();
    assert_eq!(session.call(Call::Mark(Mark { page: 7, seconds: 5f64.to_bits() })).said, [0, 1, 76, 60, 5000, 2000, SAP, 100, 7]);
    assert_eq!((session.mark(u32::MAX, 7.0), session.mark(0, 9.5)), ((0, 2, 4_294_967_295), (0, 2, 0)));
    assert_eq!((session.mark(3, 4.0), session.mark(3, 10.0), session.mark(3, -1.0)), ((23, 0, 3), (24, 0, 3), (26, 0, 3)));
}

/// A lookup changes nothing, whatever it comes to, and another page or another leaf is found wrong.
#[test]
fn wrong_answers_to_marks_are_found() {
    let mut session = read_s();
    for seconds in [4.0, 5.0, -1.0, f64::NAN] {
        let call = Call::Mark(Mark { page: 7, seconds: seconds.to_bits() });
        let right = filled(&session.peer.says(&call).expect("known"));
        assert!(right.state == session.state() && right.work.is_empty() && right.table.is_empty());
        let is_right = |answer: &Answer| session.peer.clone().judge(&call, Some(answer)).is_ok();
        let with_other = |place: usize| {
            let mut wrong = right.clone();
            wrong.said[place] ^= 1;
            wrong
        };
        assert!(is_right(&right) && !(0..9).any(|place| is_right(&with_other(place))), "{seconds}");
    }
}

#[test]
fn calls_6_and_7_as_bytes() {
    let words = |numbers: &[u64]| numbers.iter().flat_map(|number| number.to_be_bytes()).collect::<Vec<u8>>();
    let read = |numbers: &[u64]| Call::read(&mut Source::new(&words(numbers)));
    let bits = 5.25f64.to_bits();
    assert_eq!(read(&[5, bits, 0]), Some(by_ticks(bits)));
    assert_eq!(read(&[6, bits, 9]), Some(Call::Lookup(Request::Seconds(bits))));
    // Of a page the lower 32 bits count.
    let mark = Call::Mark(Mark { page: 7, seconds: bits });
    assert_eq!((read(&[7, bits, 7]), read(&[7, bits, (5 << 32) + 7])), (Some(mark.clone()), Some(mark.clone())));
    assert_eq!((read(&[8, bits, 0]), read(&[7, bits])), (None, None));
    let written = |call: &Call| {
        let mut bytes = Vec::new();
        call.write(&mut bytes);
        bytes
    };
    assert_eq!(written(&Call::Lookup(Request::Seconds(bits))), words(&[6, bits, 0]));
    assert_eq!(written(&mark), words(&[7, bits, 7]));
    assert!(mark.is_answered() && Call::Lookup(Request::Seconds(0)).is_answered());
}

/// Nine numbers, then the state and the changes.
#[test]
fn an_answer_as_bytes() {
    let answer = Answer { said: [0, 1, 76, 60, 5000, 2000, SAP, 100, 7], state: vec![4, 9], work: Vec::new(), table: Vec::new() };
    let mut bytes = Vec::new();
    answer.write(&mut bytes);
    let numbers: Vec<u64> = bytes.chunks(8).map(|eight| u64::from_be_bytes(eight.try_into().expect("eight bytes"))).collect();
    assert_eq!(numbers, [0, 1, 76, 60, 5000, 2000, SAP, 100, 7, 2, 4, 9, 0, 0, 0, 0]);
    assert_eq!(Answer::read(&mut Source::new(&bytes)), Some(answer));
}
