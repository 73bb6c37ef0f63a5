//! The reader of a segment that comes in pieces.
//!
//! It reads by small units: a header, the fields of an index, an entry, a track ID, a decode time. A unit that is all in the piece is read
//! there; one that the piece cuts is gathered in a buffer of 32 bytes. Bodies are skipped at once, and a leaf that is all in the piece is
//! read as the reader of whole segments does. What is there of a unit is looked at with each piece, so every refusal comes with its byte,
//! and number and place are always those of the whole reader. Not made are the checks that this interface leaves no room for: 1, 2, and 22.

use super::boxes::{byte_at, header, misplaced, u32_at, u64_at, Stop};
use super::boxes::{MDAT, MOOF, SIDX, STYP, TFAD, TFDT, TFHD, TRAF};
use super::index::{cut_entry, entries, fields, Entry, Fields, Parent, Sums, ENTRY, MOST_ENTRIES};
use super::whole::{material_range, opening_fault, Reading};
use super::{refusal, Leaf, Listing, Refusal, LIMIT, MOST_LEVELS};

/// Lent for the entries of the indexes that are open.
pub type Levels = [[Entry; MOST_ENTRIES]; MOST_LEVELS];

/// The longest unit: the fields of an index of version 1.
const HELD: usize = 32;

/// What comes next.
#[derive(Clone, Copy, PartialEq)]
enum Stage {
    Header,
    Brands,
    Fields,
    Entries,
    Leaf,
    TrackId,
    DecodeTime,
    Skipped,
    End,
}

/// The list of boxes that the next header stands in. The first box of an index entry is a list of its own.
#[derive(Clone, Copy, PartialEq)]
enum List {
    Opening,
    Gap,
    Inner,
    Leaf,
    Moof,
    Traf,
}

/// Why a unit was not taken.
enum Halt {
    More,
    Refused(Refusal),
}

impl From<Refusal> for Halt {
    fn from(refusal: Refusal) -> Halt {
        Halt::Refused(refusal)
    }
}

impl Stop {
    fn halt(self, place: usize) -> Halt {
        match self {
            Stop::More => Halt::More,
            Stop::Fault(number) => refusal(number, place).into(),
        }
    }
}

/// An index whose entries are being read or gone through.
#[derive(Clone, Copy, Default)]
struct Open {
    count: usize,
    next: usize,
}

/// The leaf being read, and how far.
#[derive(Clone, Copy, Default)]
struct Current {
    entry: Entry,
    place: usize,
    end: usize,
    moof_seen: bool,
    first: Option<u64>,
    moof_end: usize,
    traf: usize,
    traf_end: usize,
    track: Option<u32>,
    timed: bool,
}

pub struct Fed<'a> {
    brand: [u8; 4],
    listed: bool,
    levels: &'a mut Levels,
    open: [Open; MOST_LEVELS],
    depth: usize,
    reading: Reading<'a>,
    room: usize,
    stage: Stage,
    list: List,
    /// The place of the next unit, and what has come of it.
    at: usize,
    held: [u8; HELD],
    held_count: usize,
    /// The box being read.
    place: usize,
    body_place: usize,
    end: usize,
    index: Fields,
    sums: Sums,
    material: usize,
    leaf: Current,
    kept: Option<Refusal>,
}

impl<'a> Fed<'a> {
    pub fn new(brand: [u8; 4], leaves: &'a mut [Leaf], levels: &'a mut Levels) -> Fed<'a> {
        let reading = Reading::new(leaves);
        Fed {
            brand,
            listed: false,
            levels,
            open: Default::default(),
            depth: 0,
            room: reading.room.len(),
            reading,
            stage: Stage::Header,
            list: List::Opening,
            at: 0,
            held: [0; HELD],
            held_count: 0,
            place: 0,
            body_place: 0,
            end: 0,
            index: Fields::default(),
            sums: Sums::default(),
            material: 0,
            leaf: Current::default(),
            kept: None,
        }
    }

    /// Reads the next piece. Answers the count of all bytes read.
    pub fn feed(&mut self, piece: &[u8]) -> Result<u64, Refusal> {
        if let Some(kept) = self.kept {
            return Err(kept);
        }
        let answer = self.advance(piece);
        self.kept = answer.err();
        answer
    }

    /// The segment has no more bytes. A refusal is kept; what a call after an accepted finish gives is no part of this reader.
    pub fn finish(&mut self) -> Result<Listing, Refusal> {
        match self.kept {
            Some(kept) => Err(kept),
            None if self.stage != Stage::End => Err(refusal(20, self.at + self.held_count)),
            None => Ok(Listing { leaves: self.room - self.reading.room.len(), timescale: self.index.timescale }),
        }
    }

    fn advance(&mut self, mut rest: &[u8]) -> Result<u64, Refusal> {
        while !rest.is_empty() {
            rest = match self.stage {
                Stage::Skipped => self.skip(rest)?,
                Stage::Leaf => self.whole_leaf(rest)?,
                Stage::End => return Err(refusal(if self.at == LIMIT { 3 } else { 21 }, self.at)),
                _ if self.held_count == 0 => self.lent_unit(rest)?,
                _ => self.held_unit(rest)?,
            };
        }
        Ok((self.at + self.held_count) as u64)
    }

    /// Passes what the piece has of a skipped body.
    fn skip<'p>(&mut self, rest: &'p [u8]) -> Result<&'p [u8], Refusal> {
        let skipped = rest.len().min(self.end - self.at);
        self.at += skipped;
        if self.at == self.end {
            self.closed()?;
        }
        Ok(&rest[skipped..])
    }

    /// Reads a leaf that the piece has whole; else the leaf is read by its boxes.
    fn whole_leaf<'p>(&mut self, rest: &'p [u8]) -> Result<&'p [u8], Refusal> {
        let Some((leaf, rest)) = rest.split_at_checked(self.leaf.entry.size()) else {
            self.stage = Stage::Header;
            return Ok(rest);
        };
        self.reading.place = self.at as u64;
        self.reading.leaf(&self.leaf.entry, leaf).map_err(|fault| fault.refused(leaf, self.at))?;
        self.at = self.leaf.end;
        self.next_entry();
        Ok(rest)
    }

    /// Reads a unit from the piece, or holds what is there of it.
    fn lent_unit<'p>(&mut self, rest: &'p [u8]) -> Result<&'p [u8], Refusal> {
        match self.unit(rest) {
            Ok(taken) => Ok(&rest[taken..]),
            Err(Halt::Refused(refusal)) => Err(refusal),
            Err(Halt::More) => {
                self.held[..rest.len()].copy_from_slice(rest);
                self.held_count = rest.len();
                Ok(&[])
            }
        }
    }

    /// Reads a unit that has begun in an earlier piece. More may be held for it than it turns out to have; that stays in the piece.
    fn held_unit<'p>(&mut self, rest: &'p [u8]) -> Result<&'p [u8], Refusal> {
        let before = self.held_count;
        let added = rest.len().min(HELD - before);
        self.held[before..before + added].copy_from_slice(&rest[..added]);
        self.held_count += added;
        // Every number in a unit ends at a multiple of four bytes, and before that only the first byte, a version, tells anything.
        if before / 4 == self.held_count / 4 {
            return Ok(&rest[added..]);
        }
        let held = self.held;
        match self.unit(&held[..self.held_count]) {
            Ok(taken) => {
                self.held_count = 0;
                Ok(&rest[taken - before..])
            }
            Err(Halt::Refused(refusal)) => Err(refusal),
            Err(Halt::More) => Ok(&rest[added..]),
        }
    }

    /// Takes the next unit, or several entries or brands, and answers how many bytes were taken.
    fn unit(&mut self, bytes: &[u8]) -> Result<usize, Halt> {
        match self.stage {
            Stage::Header => self.header(bytes),
            Stage::Brands => self.brands(bytes),
            Stage::Fields => self.fields(bytes),
            Stage::Entries => self.entries(bytes),
            Stage::TrackId => self.track_id(bytes),
            Stage::DecodeTime => self.decode_time(bytes),
            Stage::Leaf | Stage::Skipped | Stage::End => unreachable!("these have no units"),
        }
    }

    fn list_end(&self) -> usize {
        match self.list {
            List::Opening => LIMIT,
            List::Gap => self.material,
            List::Inner | List::Leaf => self.leaf.end,
            List::Moof => self.leaf.moof_end,
            List::Traf => self.leaf.traf_end,
        }
    }

    fn header(&mut self, bytes: &[u8]) -> Result<usize, Halt> {
        let found = match header(bytes, self.list_end() - self.at) {
            Ok(found) => found,
            Err(Stop::Fault(_)) if self.at == LIMIT => return Err(refusal(3, LIMIT).into()),
            Err(stop) => return Err(stop.halt(self.at)),
        };
        self.place = self.at;
        self.end = self.at + found.size;
        self.at += found.length;
        self.body_place = self.at;
        match self.list {
            List::Opening => self.opening_box(found.kind)?,
            List::Gap => self.gap_box(found.kind)?,
            List::Inner => self.inner_box(found.kind)?,
            List::Leaf => self.leaf_box(found.kind)?,
            List::Moof => self.moof_box(found.kind)?,
            List::Traf => self.traf_box(found.kind)?,
        }
        Ok(found.length)
    }

    fn body(&self) -> usize {
        self.end - self.at
    }

    /// Goes on with the body of the box, of which the reader knows nothing more.
    fn skipped(&mut self) -> Result<(), Refusal> {
        self.stage = Stage::Skipped;
        if self.at == self.end {
            self.closed()?;
        }
        Ok(())
    }

    fn opening_box(&mut self, kind: u32) -> Result<(), Refusal> {
        if let Some(number) = opening_fault(kind, self.body(), self.place == 0) {
            return Err(refusal(number, self.place));
        }
        match kind {
            STYP => self.stage = Stage::Brands,
            SIDX => self.stage = Stage::Fields,
            _ => self.skipped()?,
        }
        Ok(())
    }

    fn gap_box(&mut self, kind: u32) -> Result<(), Refusal> {
        if matches!(kind, STYP | SIDX | MOOF | MDAT) {
            return Err(refusal(misplaced(kind, self.body()), self.place));
        }
        self.skipped()
    }

    fn inner_box(&mut self, kind: u32) -> Result<(), Refusal> {
        if kind != SIDX || self.body() < 24 {
            return Err(refusal(misplaced(kind, self.body()), self.place));
        }
        if self.depth == MOST_LEVELS {
            return Err(refusal(13, self.place));
        }
        self.stage = Stage::Fields;
        Ok(())
    }

    fn leaf_box(&mut self, kind: u32) -> Result<(), Refusal> {
        if matches!(kind, STYP | SIDX) || kind == MDAT && !self.leaf.moof_seen {
            return Err(refusal(misplaced(kind, self.body()), self.place));
        }
        if self.place == self.leaf.place && self.reading.room.len() == 0 {
            return Err(refusal(15, self.place));
        }
        if kind != MOOF {
            return self.skipped();
        }
        self.leaf.moof_seen = true;
        self.leaf.moof_end = self.end;
        self.list = List::Moof;
        self.closed()
    }

    fn moof_box(&mut self, kind: u32) -> Result<(), Refusal> {
        if kind != TRAF {
            return self.skipped();
        }
        self.leaf = Current { traf: self.place, traf_end: self.end, track: None, timed: false, ..self.leaf };
        self.list = List::Traf;
        self.closed()
    }

    fn traf_box(&mut self, kind: u32) -> Result<(), Refusal> {
        let (known, timed) = (self.leaf.track.is_some(), self.leaf.timed);
        match kind {
            TFHD | TFDT if self.body() < 8 => return Err(refusal(6, self.place)),
            TFHD if !known => self.stage = Stage::TrackId,
            TFDT if known && !timed => self.stage = Stage::DecodeTime,
            TFHD | TFDT => return Err(refusal(16, self.place)),
            // Where nothing follows, the same byte shows that the `traf` lacks something; that number is lower.
            TFAD if !timed && self.at == self.leaf.traf_end => return Err(refusal(16, self.leaf.traf)),
            TFAD => return Err(refusal(17, self.place)),
            _ => self.skipped()?,
        }
        Ok(())
    }

    /// A box has ended, or the list in it begins. What ends with it is closed, and what follows is a header or the next entry.
    fn closed(&mut self) -> Result<(), Refusal> {
        self.stage = Stage::Header;
        if self.list == List::Traf && self.at == self.leaf.traf_end {
            if !self.leaf.timed {
                return Err(refusal(16, self.leaf.traf));
            }
            self.list = List::Moof;
        }
        if self.list == List::Moof && self.at == self.leaf.moof_end {
            self.list = List::Leaf;
        }
        if self.list == List::Leaf && self.at == self.leaf.end {
            let decode = self.leaf.first.ok_or(refusal(19, self.leaf.place))?;
            self.reading.place = self.leaf.place as u64;
            let record = self.reading.room.next().expect("there was room at the leaf's first box");
            self.reading.write(record, &self.leaf.entry, decode);
            self.next_entry();
        }
        if self.list == List::Gap && self.at == self.material {
            self.next_entry();
        }
        Ok(())
    }

    /// Goes on with the next entry, of the innermost index that has one left.
    fn next_entry(&mut self) {
        while self.depth > 0 && self.open[self.depth - 1].next == self.open[self.depth - 1].count {
            self.depth -= 1;
        }
        let Some(level) = self.depth.checked_sub(1) else {
            self.stage = Stage::End;
            return;
        };
        let entry = self.levels[level][self.open[level].next];
        self.open[level].next += 1;
        self.leaf = Current { entry, place: self.at, end: self.at + entry.size(), ..Current::default() };
        (self.list, self.stage) = if entry.is_leaf() { (List::Leaf, Stage::Leaf) } else { (List::Inner, Stage::Header) };
    }

    /// Looks through brands. The first two numbers of the body, the major brand and the minor version, are none of the compatible ones.
    fn brands(&mut self, bytes: &[u8]) -> Result<usize, Halt> {
        let there = bytes.len().min(self.body()) / 4 * 4;
        if there == 0 {
            return Err(Halt::More);
        }
        let before = (self.body_place + 8).saturating_sub(self.at).min(there);
        self.listed |= bytes[before..there].chunks_exact(4).any(|brand| brand == self.brand);
        self.at += there;
        if self.at == self.end {
            if !self.listed {
                return Err(refusal(8, self.place).into());
            }
            self.stage = Stage::Header;
        }
        Ok(there)
    }

    fn fields(&mut self, bytes: &[u8]) -> Result<usize, Halt> {
        let parent = Parent { id: self.index.id, timescale: self.index.timescale, start: self.reading.time };
        let parent = (self.list == List::Inner).then_some(&parent);
        let index = fields(bytes, self.body(), parent).map_err(|stop| stop.halt(self.place))?;
        if parent.is_none() {
            self.reading.begin(&index);
        }
        self.index = index;
        self.sums = Sums::default();
        self.open[self.depth] = Open { count: index.count, next: 0 };
        self.stage = Stage::Entries;
        self.at += index.length;
        Ok(index.length)
    }

    /// Stores the entries that are there whole.
    fn entries(&mut self, bytes: &[u8]) -> Result<usize, Halt> {
        let bytes = &bytes[..bytes.len().min(self.body())];
        let count = bytes.len() / ENTRY;
        if count == 0 {
            return Err(cut_entry(bytes).halt(self.place));
        }
        let next = &mut self.open[self.depth].next;
        for (stored, entry) in self.levels[self.depth][*next..].iter_mut().zip(entries(bytes)) {
            self.sums.add(&entry).map_err(|stop| stop.halt(self.place))?;
            *stored = entry;
        }
        *next += count;
        self.at += count * ENTRY;
        if self.at == self.end {
            self.index_ended()?;
        }
        Ok(count * ENTRY)
    }

    fn index_ended(&mut self) -> Result<(), Refusal> {
        self.open[self.depth].next = 0;
        self.depth += 1;
        if self.list == List::Inner {
            let (durations, sizes) = (u64::from(self.leaf.entry.duration), (self.leaf.end - self.at) as u64);
            if self.sums.durations != durations || self.sums.sizes != sizes {
                return Err(refusal(12, self.place));
            }
            self.next_entry();
            return Ok(());
        }
        let (material, _) = material_range(self.at, &self.index, &self.sums).ok_or(refusal(14, self.place))?;
        self.material = material;
        self.list = List::Gap;
        self.closed()
    }

    fn track_id(&mut self, bytes: &[u8]) -> Result<usize, Halt> {
        let track = u32_at(bytes, 4).map_err(|stop| stop.halt(self.place))?;
        self.leaf.track = Some(track);
        self.at += 8;
        self.skipped()?;
        Ok(8)
    }

    fn decode_time(&mut self, bytes: &[u8]) -> Result<usize, Halt> {
        let body = self.body();
        let time = cut_decode_time(bytes, body).map_err(|stop| stop.halt(self.place))?;
        if self.leaf.track == Some(self.reading.id) {
            if time < self.reading.decode {
                return Err(refusal(18, self.place).into());
            }
            self.reading.decode = time;
            self.leaf.first.get_or_insert(time);
        }
        self.leaf.timed = true;
        self.at = self.end;
        self.closed()?;
        Ok(body)
    }
}

/// Reads the decode time of a `tfdt` from the bytes of its body that are there; `body` is how many it has.
fn cut_decode_time(bytes: &[u8], body: usize) -> Result<u64, Stop> {
    match (byte_at(bytes, 0)?, body) {
        (0, 8) => u32_at(bytes, 4).map(u64::from),
        (1, 12) => u64_at(bytes, 4),
        (0 | 1, _) => Err(Stop::Fault(6)),
        _ => Err(Stop::Fault(10)),
    }
}

/// How a segment is refused that ends before its material does.
#[cold]
pub(super) fn cut_segment(segment: &[u8], brand: [u8; 4], leaves: &mut [Leaf]) -> Refusal {
    let mut levels = Box::new([[Entry::default(); MOST_ENTRIES]; MOST_LEVELS]);
    let mut fed = Fed::new(brand, leaves, &mut levels);
    match fed.feed(segment).and_then(|_| fed.finish()) {
        Err(refusal) => refusal,
        Ok(_) => unreachable!("the segment ends before its material does"),
    }
}
