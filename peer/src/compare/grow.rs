//! Segments that document 01 accepts, grown at random.

use super::random::Random;
use super::seconds;
use super::shape::{Body, Entry, Index, Kind, Piece, Segment, Under, AT_TOP, IN_MOOF, IN_TRAF, KNOWN};

/// What a segment is to be like.
#[derive(Clone, Debug)]
pub struct Wish {
    /// The level of its deepest index; with 5 it is refused.
    pub levels: usize,
    /// The most entries of an index on the first and on the other levels.
    pub entries: (usize, usize),
    /// How often, of a hundred, a skipped box stands where one may.
    pub skipped: u64,
    /// The longest body of an `mdat`.
    pub media: usize,
}

impl Wish {
    /// Mostly small segments, with some that are deeper or wider.
    pub fn any(random: &mut Random) -> Wish {
        Wish {
            levels: random.weighted(&[(40, 1), (25, 2), (18, 3), (17, 4)]),
            entries: random.weighted(&[(30, (1, 1)), (45, (3, 2)), (20, (5, 3)), (2, (24, 4))]),
            skipped: random.pick(&[0, 5, 20, 50]),
            media: random.weighted(&[(60, 4), (35, 40), (5, 4000)]),
        }
    }

    /// A few entries on each level, so that most of it lies deep inside.
    pub fn deep(random: &mut Random) -> Wish {
        Wish { levels: random.count(2..=4), entries: (2, 2), skipped: random.pick(&[0, 10]), media: 8 }
    }
}

/// What is the same, or goes on, through a whole segment.
struct Grower<'a> {
    random: &'a mut Random,
    wish: Wish,
    id: u32,
    scale: u32,
    /// The last decode time of the reference track.
    decode: u64,
    /// How fast decode times rise.
    rise: u64,
    /// How often, of a hundred, a header has a 64-bit size.
    wide: u64,
}

/// A segment of that kind.
pub fn segment(random: &mut Random, wish: Wish) -> Segment {
    let mut grower = Grower::new(random, wish);
    let (mut top, _) = grower.index(1, u32::MAX);
    grower.place_in_time(&mut top);
    finish(&mut grower, top)
}

/// A segment with one index of `count` entries, each the shortest of leaves.
pub fn with_entries(random: &mut Random, count: usize) -> Segment {
    let mut grower = Grower::new(random, Wish { levels: 1, entries: (1, 1), skipped: 0, media: 0 });
    let mut top = grower.bare_index();
    top.entries = (0..count).map(|_| grower.tiny_entry()).collect();
    grower.place_in_time(&mut top);
    finish(&mut grower, top)
}

/// A segment with inner indexes of at most 1,024 of the shortest leaves, `count` in all.
pub fn with_leaves(random: &mut Random, count: usize) -> Segment {
    let mut grower = Grower::new(random, Wish { levels: 2, entries: (1, 1), skipped: 0, media: 0 });
    let mut top = grower.bare_index();
    for first in (0..count).step_by(1024) {
        let mut inner = grower.bare_index();
        inner.entries = (first..count.min(first + 1024)).map(|_| grower.tiny_entry()).collect();
        let duration = inner.durations() as u32;
        top.entries.push(Entry { duration, sap: grower.random.word(), under: Under::Index(Box::new(inner)) });
    }
    grower.place_in_time(&mut top);
    finish(&mut grower, top)
}

/// A skipped box for a place where the types of `known` are known.
pub fn skipped(random: &mut Random, known: &[Kind]) -> Piece {
    let kind = loop {
        let kind = other_kind(random);
        if !known.contains(&kind) {
            break kind;
        }
    };
    let body = match random.below(10) {
        0..=2 => Vec::new(),
        3..=4 => random.bytes(1),
        5 => [vec![0, 0, 0, 8], random.pick(&KNOWN).to_vec()].concat(),
        _ => {
            let length = random.count(2..=16);
            random.bytes(length)
        }
    };
    Piece::Box { kind, wide: random.chance(10), body: Body::Bytes(body) }
}

/// A type: known somewhere, well known elsewhere, nearly a known one, or any.
pub fn other_kind(random: &mut Random) -> Kind {
    match random.below(5) {
        0 | 1 => random.pick(&KNOWN),
        2 => random.pick(&[*b"free", *b"skip", *b"uuid", *b"prft", *b"emsg", *b"mfhd", *b"trun", *b"moov", [0; 4], [255; 4]]),
        3 => {
            let mut near = random.pick(&KNOWN);
            near[random.index(4)] ^= 1 << random.below(8);
            near
        }
        _ => random.word().to_be_bytes(),
    }
}

fn finish(grower: &mut Grower, top: Index) -> Segment {
    let wanted = grower.wanted_brand();
    let mut before = vec![grower.styp(wanted)];
    before.extend(grower.skipped_some(&AT_TOP));
    let boxes = grower.random.weighted(&[(70, 0), (15, 1), (10, 2), (5, 3)]);
    let gap = (0..boxes).map(|_| skipped(grower.random, &AT_TOP)).collect();
    Segment { wanted, before, top, gap, after: Vec::new() }
}

impl<'a> Grower<'a> {
    fn new(random: &'a mut Random, wish: Wish) -> Grower<'a> {
        let any = random.word();
        let id = random.pick(&[0, 1, 1, 1, 2, u32::MAX, any]);
        let scale = seconds::scale(random);
        let decode = random.pick(&[0, 0, 100, u64::from(u32::MAX) - 3, u64::MAX - 5, u64::from(any)]);
        let rise = random.pick(&[0, 1, 2, 1000, 1 << 31, 1 << 60]);
        let wide = random.pick(&[0, 0, 10, 40]);
        Grower { random, wish, id, scale, decode, rise, wide }
    }

    fn wanted_brand(&mut self) -> u32 {
        let any = self.random.word();
        let msdh = u32::from_be_bytes(*b"msdh");
        self.random.pick(&[msdh, msdh, msdh, u32::from_be_bytes(*b"3gh9"), 0, u32::MAX, any])
    }

    fn boxed(&mut self, kind: Kind, body: Body) -> Piece {
        Piece::Box { kind, wide: self.random.chance(self.wide), body }
    }

    fn styp(&mut self, wanted: u32) -> Piece {
        let mut brands: Vec<u32> = (0..self.random.weighted(&[(50, 0), (30, 1), (15, 3), (5, 8)])).map(|_| self.random.word()).collect();
        let at = self.random.index(brands.len() + 1);
        brands.insert(at, wanted);
        let any = self.random.word();
        let (major, minor) = (self.random.pick(&[wanted, any]), self.random.pick(&[0, any]));
        self.boxed(*b"styp", Body::Styp { major, minor, brands })
    }

    /// No skipped box, or one, or a few.
    fn skipped_some(&mut self, known: &[Kind]) -> Vec<Piece> {
        let mut found = Vec::new();
        while found.len() < 4 && self.random.chance(self.wish.skipped) {
            found.push(skipped(self.random, known));
        }
        found
    }

    /// An index without entries.
    fn bare_index(&mut self) -> Index {
        Index {
            ahead: Vec::new(),
            wide: self.random.chance(self.wide),
            version: self.random.below(2) as u8,
            flags: if self.random.chance(30) { self.random.word() >> 8 } else { 0 },
            id: self.id,
            scale: self.scale,
            time: 0,
            beyond: 0,
            reserved: if self.random.chance(30) { self.random.word() as u16 } else { 0 },
            entries: Vec::new(),
            spare: Vec::new(),
            behind: Vec::new(),
        }
    }

    /// An index whose durations sum to at most `budget`, and that sum; on the first level, to any sum.
    fn index(&mut self, level: usize, budget: u32) -> (Index, u32) {
        let mut index = self.bare_index();
        let most = if level == 1 { self.wish.entries.0 } else { self.wish.entries.1 };
        let count = self.random.count(1..=most);
        // One entry is an index at least, so that the deepest level is reached.
        let deep = self.random.index(count);
        let mut left = budget;
        for number in 0..count {
            let inner = level < self.wish.levels && (number == deep || self.random.chance(35));
            let (duration, under) = if inner { self.inner(level, left) } else { (self.duration(left), Under::Leaf(self.leaf())) };
            left = if level == 1 { budget } else { left - duration };
            index.entries.push(Entry { duration, sap: self.sap(), under });
        }
        (index, budget - left)
    }

    fn inner(&mut self, level: usize, budget: u32) -> (u32, Under) {
        let (inner, sum) = self.index(level + 1, budget);
        (sum, Under::Index(Box::new(inner)))
    }

    fn duration(&mut self, budget: u32) -> u32 {
        let any = self.random.word() >> self.random.below(32);
        self.random.pick(&[0, 1, 2, 5, 1000, 9000, any, budget]).min(budget)
    }

    fn sap(&mut self) -> u32 {
        let any = self.random.word();
        self.random.pick(&[0x9000_0000, 0, any])
    }

    /// Gives the tree a start time with which all of it ends by 2^64 − 1.
    fn place_in_time(&mut self, top: &mut Index) {
        let latest = u64::MAX - top.durations();
        let any = self.random.number();
        let near = latest - self.random.below(3).min(latest);
        let start = self.random.pick(&[0, 5000, u64::from(u32::MAX) - 1, latest, near, any]);
        top.set_times(start.min(latest));
    }

    /// The shortest leaf, with any duration that a sum of 1,024 stands.
    fn tiny_entry(&mut self) -> Entry {
        let traf = self.bare_traf(self.id, self.decode.min(u64::from(u32::MAX)));
        let moof = Piece::new(*b"moof", Body::Boxes(vec![Piece::new(*b"traf", Body::Boxes(traf))]));
        Entry { duration: self.random.word() >> 10, sap: self.sap(), under: Under::Leaf(vec![moof]) }
    }

    fn bare_traf(&mut self, track: u32, time: u64) -> Vec<Piece> {
        let tfhd = Piece::new(*b"tfhd", Body::Tfhd { flags: 0, track, rest: Vec::new() });
        vec![tfhd, Piece::new(*b"tfdt", Body::Tfdt { version: 0, flags: 0, time })]
    }

    /// Boxes that make a leaf: `moof`s, `mdat`s behind the first of them, skipped boxes anywhere.
    fn leaf(&mut self) -> Vec<Piece> {
        let mut boxes = self.skipped_some(&AT_TOP);
        let moofs = self.random.weighted(&[(80, 1), (15, 2), (5, 4)]);
        let reference = self.random.index(moofs);
        for number in 0..moofs {
            boxes.push(self.moof(number == reference));
            boxes.extend(self.skipped_some(&AT_TOP));
            for _ in 0..self.random.weighted(&[(25, 0), (60, 1), (15, 2)]) {
                let length = self.random.count(0..=self.wish.media);
                let body = self.random.bytes(length);
                boxes.push(self.boxed(*b"mdat", Body::Bytes(body)));
                boxes.extend(self.skipped_some(&AT_TOP));
            }
        }
        boxes
    }

    /// A `moof`; `reference` says that the reference track has to be in it.
    fn moof(&mut self, reference: bool) -> Piece {
        let mut boxes = self.skipped_some(&IN_MOOF);
        let trafs = self.random.weighted(&[(10, usize::from(reference)), (60, 1), (20, 2), (10, 3)]);
        let wanted = self.random.index(trafs.max(1));
        for number in 0..trafs {
            let of_reference = (reference && number == wanted) || self.random.chance(20);
            boxes.push(self.traf(of_reference));
            boxes.extend(self.skipped_some(&IN_MOOF));
        }
        self.boxed(*b"moof", Body::Boxes(boxes))
    }

    fn traf(&mut self, reference: bool) -> Piece {
        let (track, time) = if reference { (self.id, self.next_decode()) } else { (self.other_track(), self.random.number()) };
        let fits = time <= u64::from(u32::MAX);
        let version = if fits { self.random.below(2) as u8 } else { 1 };
        let flags = if self.random.chance(30) { self.random.word() } else { 0 };
        let rest = if self.random.chance(30) { self.random.count(1..=12) } else { 0 };
        let rest = self.random.bytes(rest);
        let mut boxes = self.skipped_some(&IN_TRAF);
        boxes.push(self.boxed(*b"tfhd", Body::Tfhd { flags, track, rest }));
        boxes.extend(self.skipped_some(&IN_TRAF));
        boxes.push(self.boxed(*b"tfdt", Body::Tfdt { version, flags: flags >> 8, time }));
        boxes.extend(self.skipped_some(&IN_TRAF));
        self.boxed(*b"traf", Body::Boxes(boxes))
    }

    fn other_track(&mut self) -> u32 {
        let any = self.random.word();
        let track = self.random.pick(&[self.id.wrapping_add(1), self.id.wrapping_sub(1), any]);
        if track == self.id {
            !track
        } else {
            track
        }
    }

    fn next_decode(&mut self) -> u64 {
        let step = if self.random.chance(30) { 0 } else { self.random.within(0..=self.rise) };
        self.decode = self.decode.saturating_add(step);
        self.decode
    }
}

#[cfg(test)]
mod tests {
    use super::*;
    use crate::calls::{Call, SAID};
    use crate::compare::bytes::{self, Written};
    use crate::compare::stand_in::StandIn;

    /// What the peer's whole reader says of the segment, and the table it fills: position, size, start and duration of each leaf.
    fn read(segment: &Segment, written: &Written) -> ([u64; SAID], Vec<[u64; 4]>) {
        let mut peer = StandIn::default();
        let numbers = 6 * written.leaves.len();
        peer.answer(&Call::LendTable { numbers, each: 0 });
        let answer = peer.answer(&Call::Whole { brand: segment.wanted, segment: written.bytes.clone() }).expect("it is answered");
        let mut table = vec![0; numbers];
        for run in &answer.table {
            table[run.at..run.at + run.now.len()].copy_from_slice(&run.now);
        }
        let record = |six: &[u64]| [six[0], six[1], six[2], six[3]];
        (answer.said, table.chunks(6).map(record).collect())
    }

    /// The same four numbers as they were written.
    fn leaves(written: &Written) -> Vec<[u64; 4]> {
        let four = |leaf: &bytes::WrittenLeaf| {
            let size = leaf.ends.last().expect("a leaf has boxes") - leaf.at;
            [leaf.at as u64, size as u64, leaf.start, u64::from(leaf.duration)]
        };
        written.leaves.iter().map(four).collect()
    }

    fn assert_accepted(segment: &Segment) {
        let written = bytes::write(segment);
        let (said, table) = read(segment, &written);
        assert_eq!(said[..2], [0, written.leaves.len() as u64], "{:02x?}", written.bytes);
        assert_eq!(table, leaves(&written));
    }

    #[test]
    fn what_was_not_damaged_is_accepted() {
        let mut random = Random::new(2);
        for _ in 0..3000 {
            let wish = Wish::any(&mut random);
            assert_accepted(&segment(&mut random, wish));
            let wish = Wish::deep(&mut random);
            assert_accepted(&segment(&mut random, wish));
        }
    }

    #[test]
    fn the_largest_are_accepted_and_larger_ones_refused() {
        let mut random = Random::new(3);
        assert_accepted(&with_entries(&mut random, 1024));
        assert_accepted(&with_leaves(&mut random, 4096));
        for (segment, number) in [(with_entries(&mut random, 1025), 11), (with_leaves(&mut random, 4097), 15)] {
            let written = bytes::write(&segment);
            assert!(written.bytes.len() <= 524_288);
            assert_eq!(read(&segment, &written).0[0], number);
        }
        let five = segment(&mut random, Wish { levels: 5, entries: (1, 2), skipped: 0, media: 0 });
        assert_eq!(read(&five, &bytes::write(&five)).0[0], 13);
    }
}
