//! The segments that both readers are measured on. All are accepted.

use super::plain::LIMIT;
use std::path::Path;
use std::{fs, io};

/// Durations, decode times and the SAP word are like those of document 01's segment S.
const TIMESCALE: u32 = 1000;
const START: u32 = 5000;
const SAP: u32 = 0x9000_0000;
const REFERENCE_ID: u32 = 1;
const FIRST_DECODE: u32 = 100;

/// The size of the `moof` in a leaf of S's form.
const MOOF_SIZE: usize = 48;

/// A segment and what it is called in the table.
pub struct Segment {
    pub name: &'static str,
    pub what: &'static str,
    pub bytes: Vec<u8>,
}

/// An index or a leaf, before it is spelled out.
enum Node {
    Leaf { duration: u32, mdat_body: usize },
    Inner(Vec<Node>),
}

impl Node {
    /// How many bytes the node's entry covers.
    fn size(&self) -> usize {
        match self {
            Node::Leaf { mdat_body, .. } => MOOF_SIZE + 8 + mdat_body,
            Node::Inner(nodes) => index_size(nodes) + nodes.iter().map(Node::size).sum::<usize>(),
        }
    }

    fn duration(&self) -> u32 {
        match self {
            Node::Leaf { duration, .. } => *duration,
            Node::Inner(nodes) => nodes.iter().map(Node::duration).sum(),
        }
    }
}

/// The size of an index box of version 0.
fn index_size(nodes: &[Node]) -> usize {
    32 + 12 * nodes.len()
}

/// Spells a segment out, and keeps the start time and the decode time that the next node has.
struct Spelling {
    bytes: Vec<u8>,
    time: u32,
    decode: u32,
}

impl Spelling {
    fn number(&mut self, number: u32) {
        self.bytes.extend(number.to_be_bytes());
    }

    fn header(&mut self, size: usize, kind: &[u8; 4]) {
        self.number(u32::try_from(size).expect("a box of these segments has a 32-bit size"));
        self.bytes.extend(kind);
    }

    fn styp(&mut self) {
        self.header(20, b"styp");
        self.bytes.extend(b"msdh\0\0\0\0msdh");
    }

    /// An index of version 0 and all that it covers.
    fn index(&mut self, nodes: &[Node]) {
        self.header(index_size(nodes), b"sidx");
        for field in [0, REFERENCE_ID, TIMESCALE, self.time, 0, nodes.len() as u32] {
            self.number(field);
        }
        for node in nodes {
            let kind = if matches!(node, Node::Inner(_)) { 1 << 31 } else { 0 };
            self.number(kind | node.size() as u32);
            self.number(node.duration());
            self.number(SAP);
        }
        for node in nodes {
            match node {
                Node::Leaf { duration, mdat_body } => self.leaf(*duration, *mdat_body),
                Node::Inner(nodes) => self.index(nodes),
            }
        }
    }

    fn leaf(&mut self, duration: u32, mdat_body: usize) {
        self.header(MOOF_SIZE, b"moof");
        self.header(40, b"traf");
        self.header(16, b"tfhd");
        self.number(0);
        self.number(REFERENCE_ID);
        self.header(16, b"tfdt");
        self.number(0);
        self.number(self.decode);
        self.header(8 + mdat_body, b"mdat");
        self.bytes.resize(self.bytes.len() + mdat_body, 0);
        self.time += duration;
        self.decode += duration;
    }
}

fn spelled(nodes: &[Node]) -> Vec<u8> {
    let size = 20 + index_size(nodes) + nodes.iter().map(Node::size).sum::<usize>();
    let mut spelling = Spelling { bytes: Vec::with_capacity(size), time: START, decode: FIRST_DECODE };
    spelling.styp();
    spelling.index(nodes);
    spelling.bytes
}

/// Leaves of 60 bytes, as S's are.
fn small_leaves(count: usize) -> Vec<Node> {
    (0..count).map(|_| Node::Leaf { duration: 1000, mdat_body: 4 }).collect()
}

/// So many levels of indexes with so many entries each, and under them all small leaves.
fn levels(levels: usize, entries: usize) -> Vec<Node> {
    match levels {
        1 => small_leaves(entries),
        _ => (0..entries).map(|_| Node::Inner(self::levels(levels - 1, entries))).collect(),
    }
}

/// The two leaves of S and T.
fn two_leaves() -> Vec<Node> {
    vec![Node::Leaf { duration: 2000, mdat_body: 4 }, Node::Leaf { duration: 3000, mdat_body: 4 }]
}

/// Just under the limit of 268,435,456 bytes, in 64 leaves that are nearly all `mdat`.
fn large_leaves() -> Vec<Node> {
    (0..64).map(|_| Node::Leaf { duration: 1000, mdat_body: (LIMIT - 1024) / 64 - MOOF_SIZE - 8 }).collect()
}

/// The segments that are made. One index has at most 1,024 entries, so that 4,096 leaves are as flat as can be under four inner indexes.
pub fn made() -> Vec<Segment> {
    let four_inner = (0..4).map(|_| Node::Inner(small_leaves(1024))).collect();
    let make = |name, what, nodes: Vec<Node>| Segment { name, what, bytes: spelled(&nodes) };
    vec![
        make("S", "document 01's S, 2 leaves", two_leaves()),
        make("T", "document 01's T, 2 leaves on 2 levels", vec![Node::Inner(two_leaves())]),
        make("flat-256", "256 leaves of 60 bytes under one index", small_leaves(256)),
        make("flat-1024", "an index of 1,024 entries", small_leaves(1024)),
        make("flat-4096", "4,096 leaves of 60 bytes, 4 inner indexes of 1,024", four_inner),
        make("deep-256", "256 leaves of 60 bytes over 4 levels", levels(4, 4)),
        make("deep-4096", "4,096 leaves of 60 bytes over 4 levels", levels(4, 8)),
        make("large", "64 leaves of 4 MiB, just under the limit", large_leaves()),
    ]
}

/// Two films as players get them, from the folder of the cases: one that ffmpeg has packed and one of GPAC, with an inner index.
pub fn films(data: &Path) -> io::Result<Vec<Segment>> {
    let films = [
        ("ffmpeg", "ff43-h264-live-s1.m4s, 1 leaf", "ff43-h264-live-s1.m4s"),
        ("gpac", "gp10-nest1-tfdt-s1.m4s, 8 leaves", "gp10-nest1-tfdt-s1.m4s"),
    ];
    films.into_iter().map(|(name, what, file)| Ok(Segment { name, what, bytes: fs::read(data.join(file))? })).collect()
}
