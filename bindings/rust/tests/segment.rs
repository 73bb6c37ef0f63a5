//! Segment S of document 01 and its neighbours, through the crate's whole face.

use mazurlot::{whole, whole_lent, Leaf, List, Mark, Reader, Reason, Refusal, Resolved, State, MSDH, RECORD_NUMBERS, WORK_BYTES};

const S: &[u8; 196] = include_bytes!("../../../crates/list/stdin");

const FIRST: Leaf = Leaf { number: 1, position: 76, size: 60, start: 5000, duration: 2000, sap: 2415919104, decode_time: 100 };
const SECOND: Leaf = Leaf { number: 2, position: 136, size: 60, start: 7000, duration: 3000, sap: 2415919104, decode_time: 2100 };

fn list() -> List {
    whole(MSDH, S, 256).unwrap()
}

fn refused<T>(reason: Reason, place: u64) -> Result<T, Refusal> {
    Err(Refusal { reason, place })
}

/// What the lookup of a number of seconds comes to: the leaf's number, or the reason.
fn seconds(seconds: f64) -> Result<u64, Reason> {
    list().lookup_seconds(seconds).map(|leaf| leaf.number).map_err(|refusal| refusal.reason)
}

#[test]
fn whole_and_every_cut_list_the_same() {
    assert_eq!(list().leaves().collect::<Vec<_>>(), [FIRST, SECOND]);
    for cut in 0..=S.len() {
        let mut reader = Reader::new(MSDH, 2);
        assert_eq!(reader.feed(&S[..cut]), Ok(cut as u64));
        assert_eq!(reader.feed(&[]), Ok(cut as u64));
        assert_eq!(reader.feed(&S[cut..]), Ok(196));
        assert_eq!(reader.finish().unwrap().leaves().collect::<Vec<_>>(), [FIRST, SECOND], "cut at {cut}");
    }
}

#[test]
fn a_leaf_tells_its_bytes() {
    assert_eq!(list().leaves().map(|leaf| leaf.bytes()).collect::<Vec<_>>(), [76..136, 136..196]);
    assert_eq!(list().timescale(), 1000);
    let far = Leaf { position: u64::MAX, ..FIRST };
    assert_eq!(far.bytes(), u64::MAX..u64::MAX);
}

#[test]
fn ticks_are_looked_up() {
    let list = list();
    assert_eq!(list.lookup_ticks(4999), refused(Reason::BeforeList, 0));
    assert_eq!([5000, 6999].map(|ticks| list.lookup_ticks(ticks)), [Ok(FIRST); 2]);
    assert_eq!([7000, 9999].map(|ticks| list.lookup_ticks(ticks)), [Ok(SECOND); 2]);
    assert_eq!([10_000, (1 << 32) + 5000, u64::MAX].map(|ticks| list.lookup_ticks(ticks)), [refused(Reason::PastList, 0); 3]);
}

#[test]
fn seconds_are_looked_up() {
    assert_eq!([4.999, 0.0, -0.0].map(seconds), [Err(Reason::BeforeList); 3]);
    assert_eq!([5.0, 6.999, 7.0_f64.next_down()].map(seconds), [Ok(1); 3]);
    assert_eq!([7.0, 9.999, 10.0_f64.next_down()].map(seconds), [Ok(2); 3]);
    assert_eq!([10.0, f64::MAX].map(seconds), [Err(Reason::PastList); 2]);
    assert_eq!([f64::NAN, f64::INFINITY, f64::NEG_INFINITY, -1.0, -f64::from_bits(1)].map(seconds), [Err(Reason::NoTime); 5]);
}

#[test]
fn a_mark_keeps_its_page() {
    let resolve = |page, seconds| list().resolve(Mark { page, seconds });
    assert_eq!(resolve(0x8000_0001, 7.0), Resolved { page: 0x8000_0001, leaf: Ok(SECOND) });
    assert_eq!(resolve(u32::MAX, 10.0), Resolved { page: u32::MAX, leaf: refused(Reason::PastList, 0) });
}

#[test]
fn a_refusal_about_the_segment_is_kept() {
    let mut reader = Reader::new(*b"hdsm", 256);
    assert_eq!(reader.feed(&S[..19]), Ok(19));
    assert_eq!(reader.feed(&S[19..]), refused(Reason::BrandNotListed, 0));
    assert_eq!(reader.feed(&[]), refused(Reason::BrandNotListed, 0));
    assert_eq!(reader.finish().unwrap_err().reason, Reason::BrandNotListed);

    let more = [&S[..], &[0]].concat();
    assert_eq!(whole(MSDH, &more, 256).map(drop), refused(Reason::BytesAfterEnd, 196));
    assert_eq!(whole(MSDH, &S[..195], 256).map(drop), refused(Reason::Unfinished, 195));
    assert_eq!(whole(MSDH, &[], 256).map(drop), refused(Reason::Unfinished, 0));
}

#[test]
fn buffers_are_lent() {
    let (mut work, mut table) = ([0; WORK_BYTES], [7; 2 * RECORD_NUMBERS + 1]);
    let list = whole_lent(MSDH, S, &mut work[..], &mut table[..]).unwrap();
    assert_eq!(list.lookup_ticks(7000), Ok(SECOND));
    assert_eq!(list.leaves().len(), 2);
    assert_eq!((work[..24].to_vec(), table[12]), (S[52..76].to_vec(), 7));

    let mut reader = Reader::lent(MSDH, &mut work[1..], &mut table[..]);
    assert_eq!(reader.feed(S), refused(Reason::SmallWorkArea, 0));
    let mut reader = Reader::lent(MSDH, &mut work[..], &mut table[..11]);
    assert_eq!(reader.feed(S), refused(Reason::TableFull, 136));
    assert_eq!(whole(MSDH, S, 1).map(drop), refused(Reason::TableFull, 136));
    assert_eq!(whole(MSDH, S, usize::MAX).unwrap().leaves().len(), 2);
}

#[test]
fn a_reading_is_kept_as_numbers() {
    let mut reader = Reader::new(MSDH, 2);
    for byte in S {
        reader.feed(&[*byte]).unwrap();
        let (state, work, table) = reader.into_parts();
        reader = Reader::from_parts(State::from(*state.numbers()), work, table);
    }
    assert_eq!(reader.finish().unwrap().lookup_ticks(5000), Ok(FIRST));
}

#[test]
fn a_list_is_kept_as_numbers() {
    let (state, table) = list().into_parts();
    let kept = List::from_parts(state.clone(), &table[..]).unwrap();
    assert_eq!(kept.leaves().collect::<Vec<_>>(), [FIRST, SECOND]);

    let refused = |state, numbers: usize| List::from_parts(state, &table[..numbers]).unwrap_err().reason;
    assert_eq!(refused(state, 11), Reason::ShortTable);
    assert_eq!(refused(State::start(MSDH), 12), Reason::OutOfOrder);
    assert_eq!(refused(State::from([0; 57]), 12), Reason::NoState);
}

#[test]
fn no_state_is_refused() {
    let mut reader = Reader::from_parts(State::from([0; 57]), [0; WORK_BYTES], [0; 12]);
    assert_eq!(reader.feed(S), refused(Reason::NoState, 0));
    assert_eq!(reader.finish().unwrap_err(), Refusal { reason: Reason::NoState, place: 0 });

    let (state, table) = list().into_parts();
    let mut reader = Reader::from_parts(state, [0; WORK_BYTES], table);
    assert_eq!(reader.feed(&[]), refused(Reason::OutOfOrder, 0));
}

#[test]
fn what_is_held_can_be_sent_to_a_thread() {
    fn sent<T: Send + Sync>() {}
    sent::<Reader>();
    sent::<List>();
    sent::<Refusal>();
}
