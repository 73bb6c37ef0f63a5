//! The plain reader against the cases of the repository: each segment there with the answer that is listed for it.

use bench::plain::fed::Fed;
use bench::plain::index::Entry;
use bench::plain::{lookup, whole, Leaf, Listing, Refusal};
use bench::segments;
use std::fs;
use std::path::PathBuf;

const BRAND: [u8; 4] = *b"msdh";

/// The listing program has room for so many leaves.
const ROOM: usize = 256;

fn repository(path: &str) -> PathBuf {
    PathBuf::from(env!("CARGO_MANIFEST_DIR")).join("..").join(path)
}

fn text(path: &str) -> String {
    fs::read_to_string(repository(path)).expect(path)
}

fn bytes_of(hex: &str) -> Vec<u8> {
    (0..hex.len()).step_by(2).map(|at| u8::from_str_radix(&hex[at..at + 2], 16).expect("hex")).collect()
}

/// The answer in the words of the listings: `ok` with the leaf count and the records behind slashes, or `refused` with number and place.
fn words(answer: Result<Listing, Refusal>, leaves: &[Leaf]) -> String {
    let listing = match answer {
        Ok(listing) => listing,
        Err(Refusal { number, place }) => return format!("refused {number} {place}"),
    };
    let mut words = format!("ok {}", listing.leaves);
    for (index, leaf) in leaves[..listing.leaves].iter().enumerate() {
        let Leaf { position, size, start, duration, sap, decode } = leaf;
        words += &format!("/{} {position} {size} {start} {duration} {sap} {decode}", index + 1);
    }
    words
}

fn read_whole(segment: &[u8]) -> String {
    let mut leaves = [Leaf::default(); ROOM];
    let answer = whole::whole(segment, BRAND, &mut leaves);
    words(answer, &leaves)
}

fn read_fed(segment: &[u8], piece: usize) -> String {
    let mut leaves = [Leaf::default(); ROOM];
    let mut levels = Box::new([[Entry::default(); 1024]; 4]);
    let mut fed = Fed::new(BRAND, &mut leaves, &mut levels);
    let mut read = 0;
    let mut answer = Ok(0);
    for piece in segment.chunks(piece) {
        read += piece.len() as u64;
        answer = fed.feed(piece);
        match answer {
            Ok(count) => assert_eq!(count, read),
            Err(_) => break,
        }
    }
    let answer = answer.and_then(|_| fed.finish());
    words(answer, &leaves)
}

fn check(name: &str, segment: &[u8], answer: &str) {
    assert_eq!(read_whole(segment), answer, "{name}, whole");
    for piece in [1, 7, 65_536] {
        assert_eq!(read_fed(segment, piece), answer, "{name}, in pieces of {piece}");
    }
}

#[test]
fn vectors() {
    for (number, line) in text("crates/cases/data/vectors.tsv").lines().enumerate() {
        let (hex, answer) = line.split_once('\t').expect("two columns");
        check(&format!("vector {}", number + 1), &bytes_of(hex), answer);
    }
}

#[test]
fn films() {
    for line in text("crates/cases/data/real.tsv").lines() {
        let (name, answer) = line.split_once('\t').expect("two columns");
        check(name, &fs::read(repository("crates/cases/data").join(name)).expect(name), answer);
    }
}

/// The answers to these stand in what the program of cases prints, in the same order, behind the count of bytes read before a refusal.
#[test]
fn segments_of_the_cases() {
    let answers = text("crates/cases/stdout");
    for (line, printed) in text("crates/cases/data/segments.tsv").lines().zip(answers.lines()) {
        let (name, hex) = line.split_once('\t').expect("two columns");
        let answer = printed.strip_prefix(name).and_then(|rest| rest.strip_prefix(": ")).expect(name);
        let answer = answer.split_once(" read, ").map_or(answer, |(_, refused)| refused);
        check(name, &bytes_of(hex), answer);
    }
}

#[test]
fn made_segments_are_accepted() {
    let made = segments::made();
    assert_eq!(made[0].bytes, fs::read(repository("crates/list/stdin")).expect("segment S"));
    assert_eq!(made[1].bytes.len(), 240);
    for segment in made {
        let mut leaves = vec![Leaf::default(); 4096];
        let answer = whole::whole(&segment.bytes, BRAND, &mut leaves);
        assert!(answer.is_ok(), "{}: {answer:?}", segment.name);
    }
}

/// Each byte of these segments changed in some ways, and each cut: both readers have to say the same of it.
#[test]
fn changed_segments() {
    let vectors = text("crates/cases/data/vectors.tsv");
    let accepted = vectors.lines().filter_map(|line| line.split_once('\t').filter(|(_, answer)| answer.starts_with("ok")));
    for (hex, _) in accepted.take(12) {
        let segment = bytes_of(hex);
        for at in 0..segment.len() {
            assert_eq!(read_whole(&segment[..at]), read_fed(&segment[..at], 7), "cut at {at}");
            for change in [1, 4, 8, 0x80, 0xff] {
                let mut changed = segment.clone();
                changed[at] ^= change;
                assert_eq!(read_whole(&changed), read_fed(&changed, 7), "byte {at} changed by {change}");
            }
        }
    }
}

#[test]
fn times_in_s() {
    let mut leaves = [Leaf::default(); ROOM];
    let listing = whole::whole(&segments::made()[0].bytes, BRAND, &mut leaves).expect("S is accepted");
    let leaves = &leaves[..listing.leaves];
    for (ticks, answer) in [(4999, Err(23)), (5000, Ok(1)), (6999, Ok(1)), (7000, Ok(2)), (9999, Ok(2)), (10000, Err(24))] {
        assert_eq!(lookup::by_ticks(leaves, ticks).map(|found| found.number), answer, "{ticks}");
        assert_eq!(lookup::by_seconds(leaves, 1000, ticks as f64 / 1000.0).map(|found| found.number), answer, "{ticks}");
    }
    let below = f64::from_bits(7f64.to_bits() - 1);
    let odd = [(below, Ok(1)), (-0.0, Err(23)), (-1.0, Err(26)), (f64::NAN, Err(26)), (f64::INFINITY, Err(26)), (1e300, Err(24))];
    for (seconds, answer) in odd.into_iter().chain([(f64::from_bits(1), Err(23)), (1.5e17, Err(24))]) {
        assert_eq!(lookup::by_seconds(leaves, 1000, seconds).map(|found| found.number), answer, "{seconds}");
    }
}
