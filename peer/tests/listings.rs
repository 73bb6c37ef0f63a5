//! The listings given with the vectors and with the real segments.

mod common;

use common::{lines, s, t, vectors};
use peer::listing::listing;

/// A listing on one line, as the files have it.
fn on_one_line(segment: &[u8]) -> String {
    listing(segment).trim_end().replace('\n', "/")
}

#[test]
fn vectors_are_listed() {
    let vectors = vectors();
    assert_eq!(vectors.len(), 400);
    for (number, (segment, listing)) in vectors.iter().enumerate() {
        assert_eq!(on_one_line(segment), *listing, "line {}", number + 1);
    }
}

#[test]
fn real_segments_are_listed() {
    let (folder, lines) = lines("../crates/cases/data/real.tsv");
    assert!(!lines.is_empty());
    for (name, listing) in lines {
        let segment = std::fs::read(folder.join(&name)).expect("the segment stands beside the listing");
        assert_eq!(on_one_line(&segment), listing, "{name}");
    }
}

#[test]
fn s_and_t_are_listed() {
    assert_eq!(listing(&s()), "ok 2\n1 76 60 5000 2000 2415919104 100\n2 136 60 7000 3000 2415919104 2100\n");
    assert_eq!(t(5000).len(), 240);
    assert_eq!(listing(&t(5000)), "ok 2\n1 120 60 5000 2000 2415919104 100\n2 180 60 7000 3000 2415919104 2100\n");
}
