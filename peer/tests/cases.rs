//! The cases of document 01, and what docs/DECISIONS.md says of single rows.

mod common;

use common::*;
use peer::calls::Call;

/// S with the decode time of its second leaf.
fn s_with_time(time: u64) -> Vec<u8> {
    let mut segment = s()[..136].to_vec();
    segment.extend(leaf(time));
    segment
}

/// With the byte at a place changed.
fn with_byte(mut segment: Vec<u8>, at: usize, byte: u8) -> Vec<u8> {
    segment[at] = byte;
    segment
}

#[test]
fn neighbours_of_s() {
    assert_eq!(s().len(), 196);
    assert_eq!(whole(&s()), (0, 2));
    assert_eq!(whole(&s()[..195]), (20, 195));
    assert_eq!(whole(&[s(), vec![0]].concat()), (21, 196));
    assert_eq!(whole(&[]), (20, 0));
    assert_eq!(whole(&t(5000)), (0, 2));
    assert_eq!(whole(&t(4999)), (12, 64));
    assert_eq!(whole(&s_with_time(99)), (18, 168));
    assert_eq!(whole(&s_with_time(100)), (0, 2));
}

#[test]
fn lookups_in_s() {
    let mut session = Session::new(256);
    session.call(Call::Whole { brand: MSDH, segment: s() });
    let found = [4999, 5000, 6999, 7000, 9999, 10000].map(|time| session.lookup(time));
    assert_eq!(found, [(23, 0), (0, 1), (0, 1), (0, 2), (0, 2), (24, 0)]);
    assert_eq!(session.call(by_ticks(7000)).said, [0, 2, 136, 60, 7000, 3000, SAP, 2100, 0]);
}

#[test]
fn counts() {
    let leaves = |count: usize| [styp(), sidx(0, 0, &vec![leaf_entry(60, 1); count]), leaf(5).repeat(count)].concat();
    let mut session = Session::new(4096);
    assert_eq!(first_two(&session.call(Call::Whole { brand: MSDH, segment: leaves(1024) })), (0, 1024));
    assert_eq!(whole(&leaves(1025)), (11, 20));
    assert_eq!(whole(&leaves(0)), (11, 20));
    // A count of 0 in a box with an entry: the length is not that of the count, and 6 goes before 11 (R2).
    assert_eq!(whole(&with_byte(leaves(1), 51, 0)), (6, 20));
}

#[test]
fn ends_of_time() {
    let at_end = |duration: u64| [styp(), sidx_wide(u64::MAX, 0, &[leaf_entry(60, duration)]), leaf(5)].concat();
    assert_eq!(whole(&at_end(0)), (0, 1));
    assert_eq!(whole(&at_end(1)), (14, 20));
}

#[test]
fn first_offset() {
    let gap = |offset: u64, gap: &[u8]| [styp(), sidx_wide(0, offset, &[leaf_entry(60, 1)]), gap.to_vec(), leaf(5)].concat();
    assert_eq!(whole(&gap(0, &[])), (0, 1));
    assert_eq!(whole(&gap(16, &[boxed(b"free", &[]), boxed(b"moov", &[])].concat())), (0, 1));
    assert_eq!(whole(&gap(8, &boxed(b"sidx", &[]))), (6, 72));
    assert_eq!(whole(&gap(32, &boxed(b"sidx", &[0; 24]))), (9, 72));
    assert_eq!(whole(&gap(8, &boxed(b"mdat", &[]))), (9, 72));
    assert_eq!(whole(&gap(8, &boxed(b"styp", &[]))), (6, 72));
    assert_eq!(whole(&gap(20, &styp())), (7, 72));
    assert_eq!(whole(&gap(7, &[0; 7])), (5, 72));
    assert_eq!(whole(&gap(11, &[boxed(b"free", &[]), vec![0; 3]].concat())), (5, 80));
    // An offset that would wrap around in 64 bits, and the last one that fits (R7).
    assert_eq!(whole(&gap(u64::MAX, &[])), (14, 20));
    assert_eq!(whole(&gap(LIMIT - 72 - 59, &[])), (14, 20));
    assert_eq!(whole(&gap(LIMIT - 72 - 60, &boxed(b"free", &[]))[..80]), (20, 80));
}

#[test]
fn opening_boxes() {
    assert_eq!(whole(&[large(b"styp", b"msdh\0\0\0\0msdh"), s()[20..].to_vec()].concat()), (0, 2));
    assert_eq!(whole(&boxed(b"styp", b"msdh\0\0\0\0iso5")), (8, 0));
    assert_eq!(whole(&boxed(b"styp", b"msdh\0\0\0\0")), (8, 0));
    assert_eq!(whole(&boxed(b"styp", b"msdh\0\0")), (6, 0));
    assert_eq!(whole(&boxed(b"sidx", &[0; 23])), (6, 0));
    assert_eq!(whole(&boxed(b"sidx", &[0; 24])), (7, 0));
    assert_eq!(whole(&boxed(b"moof", &[])), (7, 0));
    assert_eq!(whole(&[styp(), boxed(b"moof", &[])].concat()), (9, 20));
    assert_eq!(whole(&[styp(), boxed(b"styp", &[0])].concat()), (6, 20));
    assert_eq!(whole(&[styp(), styp()].concat()), (7, 20));
    assert_eq!(whole(&[styp(), words(&[0, 0])].concat()), (4, 20));
    assert_eq!(whole(&[styp(), words(&[1, 0, 0, 15])].concat()), (4, 20));
    // A box that ends at the limit, and one that ends past it (R6).
    assert_eq!(whole(&[styp(), words(&[LIMIT - 20, 0])].concat()), (20, 28));
    assert_eq!(whole(&[styp(), words(&[LIMIT - 19, 0])].concat()), (5, 20));
}

#[test]
fn boxes_of_a_leaf() {
    let time = moof(&[traf(1, 5)]);
    assert_eq!(whole(&with_leaf(&time)), (0, 1));
    assert_eq!(whole(&with_leaf(&[boxed(b"moof", &[]), boxed(b"mdat", &[]), time.clone()].concat())), (0, 1));
    assert_eq!(whole(&with_leaf(&[boxed(b"mdat", &[]), time.clone()].concat())), (9, 64));
    assert_eq!(whole(&with_leaf(&boxed(b"free", &[]))), (19, 64));
    assert_eq!(whole(&with_leaf(&[0; 7])), (5, 64));
    assert_eq!(whole(&with_leaf(&[time.clone(), words(&[1, 0])].concat())), (5, 112));
    assert_eq!(whole(&with_leaf(&boxed(b"sidx", &[]))), (6, 64));
    assert_eq!(whole(&with_leaf(&boxed(b"sidx", &[0; 24]))), (9, 64));
    assert_eq!(whole(&with_leaf(&styp())), (7, 64));
    assert_eq!(whole(&with_leaf(&moof(&[traf(2, 5)]))), (19, 64));
    assert_eq!(whole(&with_leaf(&moof(&[traf(1, 5), traf(2, 1), traf(1, 4)]))), (18, 64 + 8 + 40 + 40 + 24));
}

#[test]
fn boxes_of_a_traf() {
    let traf_with = |boxes: &[Vec<u8>]| whole(&with_leaf(&moof(&[boxes.concat()])));
    assert_eq!(traf_with(&[]), (16, 72));
    assert_eq!(traf_with(&[tfhd(1)]), (16, 72));
    assert_eq!(traf_with(&[tfdt(5), tfhd(1)]), (16, 80));
    assert_eq!(traf_with(&[tfhd(1), tfhd(1), tfdt(5)]), (16, 96));
    assert_eq!(traf_with(&[tfhd(1), tfdt(5), tfdt(5)]), (16, 112));
    // A `tfad` of 8 bytes at the end of a `traf`: 16 where something is missing, else 17 (R2).
    assert_eq!(traf_with(&[tfhd(1), boxed(b"tfad", &[])]), (16, 72));
    assert_eq!(traf_with(&[tfhd(1), tfdt(5), boxed(b"tfad", &[])]), (17, 112));
    assert_eq!(traf_with(&[boxed(b"tfhd", &[0; 7])]), (6, 80));
    assert_eq!(traf_with(&[tfhd(1), boxed(b"tfdt", &[0; 9])]), (6, 96));
    assert_eq!(traf_with(&[tfhd(1), boxed(b"tfdt", &[1, 0, 0, 0, 0, 0, 0, 0])]), (6, 96));
    assert_eq!(traf_with(&[tfhd(1), boxed(b"tfdt", &[2, 0, 0, 0, 0, 0, 0, 0])]), (10, 96));
    assert_eq!(traf_with(&[tfhd(1), boxed(b"tfdt", &[&[1, 0, 0, 0][..], &[9; 8]].concat())]), (0, 1));
    assert_eq!(traf_with(&[boxed(b"moof", &[3; 5]), boxed(b"tfhd", &words(&[0, 1, 77])), tfdt(5)]), (0, 1));
}

/// Indexes within each other, so many of them, over one leaf.
fn nested(levels: usize) -> Vec<u8> {
    let mut inside = leaf(5);
    for level in 0..levels {
        let size = inside.len() as u64;
        let entry = if level == 0 { leaf_entry(size, 10) } else { index_entry(size, 10) };
        inside = [sidx(0, 0, &[entry]), inside].concat();
    }
    [styp(), inside].concat()
}

#[test]
fn levels() {
    assert_eq!(whole(&nested(4)), (0, 1));
    assert_eq!(whole(&nested(5)), (13, 20 + 4 * 44));
    let at = 20 + 4 * 44;
    // On level 5 a short body gives 6, and another box gives 9 (R3, R4).
    assert_eq!(whole(&with_byte(nested(5), at + 3, 31)), (6, at as u64));
    assert_eq!(whole(&with_byte(nested(5), at + 4, b'x')), (9, at as u64));
}

#[test]
fn inner_indexes() {
    // The inner index of T stands at 64; its fields in order.
    let inner = |at: usize, byte: u8| whole(&with_byte(t(5000), 64 + at, byte));
    assert_eq!(inner(15, 2), (12, 64));
    assert_eq!(inner(19, 1), (12, 64));
    assert_eq!(inner(23, 9), (12, 64));
    assert_eq!(inner(27, 1), (12, 64));
    // Version 1 has room here, and then its time is another.
    assert_eq!(inner(8, 1), (12, 64));
    assert_eq!(inner(8, 2), (10, 64));
    // Size and duration of the first entry, and its SAP word, which no rule names.
    assert_eq!(inner(35, 61), (12, 64));
    assert_eq!(inner(39, 0), (12, 64));
    assert_eq!(inner(43, 0), (0, 2));
    let mut no_scale = t(5000);
    no_scale[80..84].fill(0);
    assert_eq!(whole(&no_scale), (11, 64));
    let mut no_size = t(5000);
    no_size[64 + 32..64 + 36].fill(0);
    assert_eq!(whole(&no_size), (11, 64));
    assert_eq!(whole(&with_byte(t(5000), 64 + 4, b'x')), (9, 64));
    // A `styp` there gives 7, or 6 where its length does not fit (R4, R3).
    let mut brand_box = t(5000);
    brand_box[68..72].copy_from_slice(b"styp");
    assert_eq!(whole(&brand_box), (7, 64));
    assert_eq!(whole(&with_byte(brand_box, 67, 57)), (6, 64));
}

/// Number, place, and how many bytes were read: the fault's byte is the last of them.
fn met(segment: &[u8]) -> (u64, u64, u64) {
    let said = Session::new(256).call(Call::Whole { brand: MSDH, segment: segment.to_vec() });
    (said.said[0], said.said[1], said.state[1].unwrap_or(0))
}

#[test]
fn bytes_at_which_faults_are_met() {
    let padded = |segment: Vec<u8>| [segment, vec![0; 40]].concat();
    let met = |segment: Vec<u8>| met(&padded(segment));
    let opened = |rest: Vec<u8>| [styp(), rest].concat();
    assert_eq!(met(opened(words(&[7, 0]))), (4, 20, 28));
    assert_eq!(met(opened(words(&[1, 0, 0, 15]))), (4, 20, 36));
    assert_eq!(met(boxed(b"styp", b"msdh\0\0\0\0iso5")), (8, 0, 20));
    assert_eq!(met(opened(styp())), (7, 20, 28));
    assert_eq!(met(opened(large(b"moof", &[]))), (9, 20, 36));
    // Version 1 in a body under 32 bytes, and a version above 1 in the same.
    for length in [24, 31] {
        assert_eq!(met(opened(boxed(b"sidx", &[&[1][..], &vec![0; length - 1]].concat()))), (6, 20, 29));
        assert_eq!(met(opened(boxed(b"sidx", &[&[2][..], &vec![0; length - 1]].concat()))), (10, 20, 29));
    }
    assert_eq!(met(opened(sidx(0, 0, &[]))), (11, 20, 52));
    assert_eq!(met(opened(sidx(0, 0, &[leaf_entry(9, 0), leaf_entry(0, 0)]))), (11, 20, 68));
    assert_eq!(met(opened(sidx(0, LIMIT, &[leaf_entry(9, 0)]))), (14, 20, 64));
    // A leaf with 7, 8 and 15 bytes left for a box of size 1.
    let left = |left: usize| [moof(&[traf(1, 5)]), [&words(&[1, 0])[..], &[0; 7]].concat()[..left].to_vec()].concat();
    assert_eq!(met(with_leaf(&left(7))), (5, 112, 113));
    assert_eq!(met(with_leaf(&left(8))), (5, 112, 120));
    assert_eq!(met(with_leaf(&left(15))), (5, 112, 120));
    assert_eq!(met(with_leaf(&boxed(b"free", &[]))), (19, 64, 72));
    assert_eq!(met(with_leaf(&moof(&[tfhd(1)]))), (16, 72, 96));
    assert_eq!(met(t(4999)), (12, 64, 120));
    assert_eq!(met(s()), (21, 196, 197));
}
