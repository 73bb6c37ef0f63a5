//! The two readers on one segment, and the calls that are made of both.

use crate::library::Library;
use crate::measured::{self, BRAND};
use bench::plain::fed::Levels;
use bench::plain::index::Entry;
use bench::plain::lookup::Found;
use bench::plain::{whole::whole, Leaf, Listing, Refusal, LIMIT, MOST_LEAVES};
use bench::segments::Segment;
use std::hint::black_box;

/// The pieces that a segment is fed in: a large read of a file, and what a packet of the network holds.
pub const LARGE_PIECE: usize = 65_536;
pub const SMALL_PIECE: usize = 1_460;

/// The segments on which feeding has goals as ratios.
const FED: [&str; 7] = ["S", "flat-256", "flat-1024", "deep-256", "deep-4096", "ffmpeg", "gpac"];

#[derive(Clone, Copy, PartialEq)]
pub enum Call {
    Whole,
    /// Start, feed in pieces of so many bytes, and finish.
    Feed(usize),
    /// The starts of all leaves.
    Ticks,
    Seconds,
    /// A time past the list.
    TicksPast,
    SecondsPast,
}

#[derive(Clone, Copy, PartialEq)]
pub enum Reader {
    Library,
    Plain,
}

/// What a call answers; of many lookups the sum of the leaves' numbers and the last answer.
#[derive(Debug, PartialEq)]
pub enum Answer {
    Read(Result<Listing, Refusal>),
    Found(u64, Result<Found, u32>),
}

impl Call {
    pub fn name(&self) -> String {
        match self {
            Call::Whole => "whole".into(),
            Call::Feed(1) => "feed, byte by byte".into(),
            Call::Feed(piece) => format!("feed, {piece} bytes"),
            Call::Ticks => "lookup, ticks".into(),
            Call::Seconds => "lookup, seconds".into(),
            Call::TicksPast => "lookup, ticks, past".into(),
            Call::SecondsPast => "lookup, seconds, past".into(),
        }
    }

    /// The most instructions wanted, as a ratio to the plain reader's.
    pub fn goal(&self, segment: &str) -> Option<f64> {
        match self {
            Call::Whole if matches!(segment, "flat-256" | "flat-4096") => Some(1.3),
            Call::Whole => Some(1.6),
            Call::Feed(LARGE_PIECE) if FED.contains(&segment) => Some(1.3),
            Call::Feed(SMALL_PIECE) if FED.contains(&segment) => Some(3.0),
            Call::Feed(_) => None,
            _ => Some(1.1),
        }
    }

    /// The most instructions wanted of a feeding, as a ratio to those of the plain reader that has the whole segment.
    pub fn goal_to_whole(&self, segment: &str) -> Option<f64> {
        match self {
            Call::Feed(LARGE_PIECE) if segment == "S" => Some(4.0),
            Call::Feed(LARGE_PIECE) if FED.contains(&segment) => Some(3.0),
            _ => None,
        }
    }

    /// The most instructions wanted for one piece, where nearly all pieces are skipped.
    pub fn goal_a_piece(&self, segment: &str) -> Option<f64> {
        match self {
            Call::Feed(LARGE_PIECE) if segment == "large" => Some(1000.0),
            _ => None,
        }
    }

    /// The calls that are made on a segment. Byte by byte the largest one would take minutes.
    pub fn all(segment: &Segment) -> Vec<Call> {
        let mut calls = vec![Call::Whole, Call::Feed(LARGE_PIECE), Call::Feed(SMALL_PIECE)];
        if segment.bytes.len() < LIMIT / 2 {
            calls.push(Call::Feed(1));
        }
        calls.extend([Call::Ticks, Call::Seconds, Call::TicksPast, Call::SecondsPast]);
        calls
    }
}

pub struct Pair<'a> {
    segment: &'a [u8],
    library: Library,
    leaves: Vec<Leaf>,
    levels: Box<Levels>,
    listing: Listing,
    ticks: Vec<u64>,
    seconds: Vec<f64>,
    ticks_past: [u64; 1],
    seconds_past: [f64; 1],
}

impl<'a> Pair<'a> {
    pub fn new(segment: &'a Segment) -> Pair<'a> {
        let mut leaves = vec![Leaf::default(); MOST_LEAVES];
        let listing = whole(&segment.bytes, BRAND, &mut leaves).expect("every segment here is accepted");
        let last = leaves[listing.leaves - 1];
        let in_seconds = |ticks: u64| ticks as f64 / f64::from(listing.timescale);
        let ticks: Vec<u64> = leaves[..listing.leaves].iter().map(|leaf| leaf.start).collect();
        let mut pair = Pair {
            segment: &segment.bytes,
            library: Library::new(),
            leaves,
            levels: Box::new([[Entry::default(); 1024]; 4]),
            listing,
            seconds: ticks.iter().map(|ticks| in_seconds(*ticks)).collect(),
            ticks,
            ticks_past: [last.start + last.duration],
            seconds_past: [in_seconds(last.start + last.duration + 1)],
        };
        // The lookups of the library need a state that was accepted.
        pair.library.whole(u32::from_be_bytes(BRAND), pair.segment);
        pair
    }

    /// How many calls of the interface one run makes, a reading counting as one.
    pub fn calls(&self, call: Call) -> usize {
        if matches!(call, Call::Ticks | Call::Seconds) {
            self.ticks.len()
        } else {
            1
        }
    }

    /// Makes the calls once with one of the readers.
    pub fn run(&mut self, reader: Reader, call: Call) -> Answer {
        let segment = black_box(self.segment);
        match (reader, call) {
            (Reader::Library, Call::Whole) => {
                let number = measured::measured_whole_library(&mut self.library, segment);
                Answer::Read(self.library.listing(number))
            }
            (Reader::Plain, Call::Whole) => Answer::Read(measured::measured_whole_plain(&mut self.leaves, segment)),
            (Reader::Library, Call::Feed(piece)) => {
                let number = measured::measured_feed_library(&mut self.library, segment, piece);
                Answer::Read(self.library.listing(number))
            }
            (Reader::Plain, Call::Feed(piece)) => {
                Answer::Read(measured::measured_feed_plain(&mut self.leaves, &mut self.levels, segment, piece))
            }
            (reader, Call::Ticks) => self.look_ticks(reader, false),
            (reader, Call::TicksPast) => self.look_ticks(reader, true),
            (reader, Call::Seconds) => self.look_seconds(reader, false),
            (reader, Call::SecondsPast) => self.look_seconds(reader, true),
        }
    }

    fn look_ticks(&mut self, reader: Reader, past: bool) -> Answer {
        let times = black_box(if past { &self.ticks_past[..] } else { &self.ticks[..] });
        match reader {
            Reader::Library => {
                let (sum, number) = measured::measured_ticks_library(&mut self.library, times);
                Answer::Found(sum, self.library.found(number))
            }
            Reader::Plain => {
                let (sum, found) = measured::measured_ticks_plain(&self.leaves[..self.listing.leaves], times);
                Answer::Found(sum, found)
            }
        }
    }

    fn look_seconds(&mut self, reader: Reader, past: bool) -> Answer {
        let times = black_box(if past { &self.seconds_past[..] } else { &self.seconds[..] });
        match reader {
            Reader::Library => {
                let (sum, number) = measured::measured_seconds_library(&mut self.library, times);
                Answer::Found(sum, self.library.found(number))
            }
            Reader::Plain => {
                let Listing { leaves, timescale } = self.listing;
                let (sum, found) = measured::measured_seconds_plain(&self.leaves[..leaves], timescale, times);
                Answer::Found(sum, found)
            }
        }
    }

    /// Forgets the library's list, where the call makes one.
    pub fn forget(&mut self, call: Call) {
        if matches!(call, Call::Whole | Call::Feed(_)) {
            self.library.forget();
        }
    }

    /// Whether both have listed the same leaves.
    pub fn same_leaves(&self) -> bool {
        self.library.leaves(self.listing.leaves) == self.leaves[..self.listing.leaves]
    }
}
