//! Boxes as a tree of data: each box with its place, its header and what its body holds, as far as the bytes have come.
//!
//! Nothing is judged here; module `faults` goes over the tree for that. A list of boxes goes on as long as the end of its last box can be
//! told. A tree is extended when more bytes come: what has ended in it stays as it is.

use crate::fed::Fed;
use crate::index::Index;

/// No segment goes past this count of bytes (rows 3, 5 and 14).
pub const LIMIT: u64 = 268_435_456;

pub const STYP: u64 = kind(b"styp");
pub const SIDX: u64 = kind(b"sidx");
pub const MOOF: u64 = kind(b"moof");
pub const MDAT: u64 = kind(b"mdat");
pub const TRAF: u64 = kind(b"traf");
pub const TFHD: u64 = kind(b"tfhd");
pub const TFDT: u64 = kind(b"tfdt");
pub const TFAD: u64 = kind(b"tfad");

const fn kind(name: &[u8; 4]) -> u64 {
    u32::from_be_bytes(*name) as u64
}

/// Where a box stands. It decides which types are known (R3, R4, R5).
#[derive(Clone, Copy, Debug, PartialEq, Eq)]
pub enum Stand {
    /// The first box of the segment; its compatible brands are looked at for the one wanted.
    First {
        brand: u64,
    },
    /// After the first box, up to the top index.
    Opening,
    Gap,
    /// The first box of an index entry; an index standing there has this level.
    Entry {
        level: u64,
    },
    Leaf,
    Moof,
    Traf,
}

impl Stand {
    /// Whether `styp`, `sidx`, `moof` and `mdat` are known here (R4).
    pub fn is_top_level(self) -> bool {
        !matches!(self, Stand::Moof | Stand::Traf)
    }

    /// Whether a `sidx` standing here would be the top index.
    pub fn is_before_top(self) -> bool {
        matches!(self, Stand::First { .. } | Stand::Opening)
    }

    /// Whether row 6 refuses a body of this length at H, going by the type alone. A type that is not known here has no length (R3).
    pub fn is_misfit(self, kind: u64, body: u64) -> bool {
        match kind {
            STYP if self.is_top_level() => body < 8 || !body.is_multiple_of(4),
            SIDX if self.is_top_level() => body < 24,
            TFHD | TFDT if self == Stand::Traf => body < 8,
            _ => false,
        }
    }
}

/// A box's header, as far as it has come.
#[derive(Clone, Debug)]
pub struct Header {
    /// The first byte of the box.
    pub pos: u64,
    /// Where the box has to end at the latest: the end of its container, entry or gap, or the limit (R6).
    pub within: u64,
    /// The first four bytes.
    pub size: Option<u64>,
    pub kind: Option<u64>,
    /// The 64-bit size after the type.
    pub large: Option<u64>,
}

impl Header {
    fn new(pos: u64, within: u64) -> Header {
        Header { pos, within, size: None, kind: None, large: None }
    }

    fn extend(&mut self, fed: &Fed) {
        if self.left() < 8 {
            return;
        }
        fed.read_once(&mut self.size, self.pos, 4);
        fed.read_once(&mut self.kind, self.pos + 4, 4);
        if self.size == Some(1) && self.left() >= 16 {
            fed.read_once(&mut self.large, self.pos + 8, 8);
        }
    }

    /// How many bytes what it stands in has left for it.
    pub fn left(&self) -> u64 {
        self.within.saturating_sub(self.pos)
    }

    /// How many bytes the header has: 8 or 16.
    pub fn length(&self) -> u64 {
        if self.size == Some(1) {
            16
        } else {
            8
        }
    }

    /// H, the header's last byte.
    pub fn h(&self) -> u64 {
        self.pos + self.length() - 1
    }

    /// Where the body starts.
    pub fn body(&self) -> u64 {
        self.pos + self.length()
    }

    /// The size that the box says it has, once its header is whole.
    pub fn says(&self) -> Option<u64> {
        self.kind?;
        if self.size == Some(1) {
            self.large
        } else {
            self.size
        }
    }

    /// The type, once the header is whole.
    pub fn whole_kind(&self) -> Option<u64> {
        self.says().and(self.kind)
    }

    /// The end of the box, if rows 4 and 5 leave it one.
    pub fn end(&self) -> Option<u64> {
        let size = self.says()?;
        (self.length() <= size && size <= self.left()).then(|| self.pos + size)
    }
}

/// What the body of a box holds.
#[derive(Clone, Debug)]
pub enum Body {
    /// The header is not whole, or the end of the box cannot be told.
    Untold,
    /// Nothing in it is looked at.
    Skipped,
    Styp(Styp),
    Index(Index),
    /// Of a `moof` or a `traf`.
    Boxes(Boxes),
    Tfhd(Tfhd),
    Tfdt(Tfdt),
}

/// A box.
#[derive(Clone, Debug)]
pub struct Node {
    pub stand: Stand,
    pub header: Header,
    pub body: Body,
}

impl Node {
    pub fn new(pos: u64, within: u64, stand: Stand) -> Node {
        Node { stand, header: Header::new(pos, within), body: Body::Untold }
    }

    pub fn extend(&mut self, fed: &Fed) {
        self.header.extend(fed);
        if let (Body::Untold, Some(kind), Some(end)) = (&self.body, self.header.kind, self.header.end()) {
            self.body = body(self.stand, kind, &self.header, end);
        }
        match &mut self.body {
            Body::Untold | Body::Skipped => {}
            Body::Styp(styp) => styp.extend(fed),
            Body::Index(index) => index.extend(fed),
            Body::Boxes(boxes) => boxes.extend(fed),
            Body::Tfhd(tfhd) => fed.read_once(&mut tfhd.track, tfhd.from + 4, 4),
            Body::Tfdt(tfdt) => tfdt.extend(fed),
        }
    }

    /// Whether its last byte is among the first `count`.
    pub fn has_ended(&self, count: u64) -> bool {
        self.header.end().is_some_and(|end| end <= count)
    }

    pub fn is(&self, kind: u64) -> bool {
        self.header.whole_kind() == Some(kind)
    }

    /// The list of boxes that it holds, or nothing.
    pub fn boxes(&self) -> Option<&Boxes> {
        match &self.body {
            Body::Boxes(boxes) => Some(boxes),
            _ => None,
        }
    }

    /// The index that it holds, or nothing.
    pub fn index(&self) -> Option<&Index> {
        match &self.body {
            Body::Index(index) => Some(index),
            _ => None,
        }
    }
}

/// What a body of this type holds where the box stands; one of no fitting length is not looked into.
fn body(stand: Stand, kind: u64, header: &Header, end: u64) -> Body {
    let from = header.body();
    if stand.is_misfit(kind, end - from) {
        return Body::Skipped;
    }
    match (stand, kind) {
        (Stand::First { brand }, STYP) => Body::Styp(Styp { from, end, brand, looked: from + 8, listed: false }),
        (Stand::First { .. } | Stand::Opening, SIDX) => Body::Index(Index::new(header.pos, from, end)),
        (Stand::Entry { level }, SIDX) if level <= 4 => Body::Index(Index::new(header.pos, from, end)),
        (Stand::Leaf, MOOF) => Body::Boxes(Boxes::new(from, end, Stand::Moof)),
        (Stand::Moof, TRAF) => Body::Boxes(Boxes::new(from, end, Stand::Traf)),
        (Stand::Traf, TFHD) => Body::Tfhd(Tfhd { from, end, track: None }),
        (Stand::Traf, TFDT) => Body::Tfdt(Tfdt { pos: header.pos, from, end, version: None, time: None }),
        _ => Body::Skipped,
    }
}

/// Boxes end to end.
#[derive(Clone, Debug)]
pub struct Boxes {
    pub from: u64,
    pub end: u64,
    first: Stand,
    others: Stand,
    pub list: Vec<Node>,
}

impl Boxes {
    pub fn new(from: u64, end: u64, stand: Stand) -> Boxes {
        Boxes { from, end, first: stand, others: stand, list: Vec::new() }
    }

    /// The boxes of the segment up to the top index; the limit stands for a container's end (R6).
    pub fn opening(brand: u64) -> Boxes {
        Boxes { from: 0, end: LIMIT, first: Stand::First { brand }, others: Stand::Opening, list: Vec::new() }
    }

    /// Where the next box starts, or the end; nothing if the last box has none that can be told.
    pub fn next(&self) -> Option<u64> {
        self.list.last().map_or(Some(self.from), |last| last.header.end())
    }

    /// Whether boxes fill it to its end.
    pub fn is_full(&self) -> bool {
        self.next() == Some(self.end)
    }

    pub fn extend(&mut self, fed: &Fed) {
        loop {
            if let Some(last) = self.list.last_mut() {
                last.extend(fed);
                let is_top_index = last.stand.is_before_top() && last.is(SIDX);
                if is_top_index || !last.has_ended(fed.count()) {
                    return;
                }
            }
            let Some(next) = self.next().filter(|next| *next < self.end && *next < fed.count()) else {
                return;
            };
            let stand = if self.list.is_empty() { self.first } else { self.others };
            self.list.push(Node::new(next, self.end, stand));
        }
    }

    /// The boxes with a byte at or past `since`.
    pub fn since(&self, since: u64) -> &[Node] {
        let ended = self.list.partition_point(|node| node.has_ended(since));
        &self.list[ended..]
    }
}

/// The body of the segment's `styp`.
#[derive(Clone, Debug)]
pub struct Styp {
    pub from: u64,
    pub end: u64,
    brand: u64,
    /// Where the next compatible brand starts.
    looked: u64,
    /// Whether the brand wanted is among the compatible ones that have come.
    pub listed: bool,
}

impl Styp {
    fn extend(&mut self, fed: &Fed) {
        while self.looked < self.end {
            let Some(brand) = fed.number(self.looked, 4) else {
                return;
            };
            self.listed |= brand == self.brand;
            self.looked += 4;
        }
    }
}

/// The body of a `tfhd` in a `traf`.
#[derive(Clone, Debug)]
pub struct Tfhd {
    pub from: u64,
    pub end: u64,
    pub track: Option<u64>,
}

/// The body of a `tfdt` in a `traf`.
#[derive(Clone, Debug)]
pub struct Tfdt {
    pub pos: u64,
    pub from: u64,
    pub end: u64,
    pub version: Option<u64>,
    pub time: Option<u64>,
}

impl Tfdt {
    /// How many bytes the decode time has: nothing for a version above 1 (row 10) and for a length that is not the version's (row 6).
    pub fn width(&self) -> Option<u64> {
        match (self.version?, self.end - self.from) {
            (0, 8) => Some(4),
            (1, 12) => Some(8),
            _ => None,
        }
    }

    fn extend(&mut self, fed: &Fed) {
        fed.read_once(&mut self.version, self.from, 1);
        if let Some(width) = self.width() {
            fed.read_once(&mut self.time, self.from + 4, width);
        }
    }
}
