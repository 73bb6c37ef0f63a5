//! A segment's bytes, with the places of its fields, boxes, indexes and leaves in them.

use super::shape::{Body, Entry, Index, Kind, Piece, Segment, Under};

/// What a field is. Damage chooses among these first, so that a rare field is hit as often as a frequent one.
#[derive(Clone, Copy, Debug, PartialEq, Eq, PartialOrd, Ord)]
pub enum What {
    Size,
    Kind,
    Large,
    Major,
    Minor,
    Brand,
    Version,
    Flags,
    Id,
    Scale,
    Time,
    Offset,
    Reserved,
    Count,
    EntrySize,
    Duration,
    Sap,
    HeadFlags,
    Track,
    TimeVersion,
    TimeFlags,
    Decode,
}

/// A field of the segment: its first byte and how many it has.
#[derive(Clone, Copy, Debug)]
pub struct Field {
    pub what: What,
    pub at: usize,
    pub width: usize,
}

/// What an entry covers, and where its twelve bytes stand.
#[derive(Clone, Copy, Debug)]
pub struct Covered {
    pub entry_at: usize,
    pub at: usize,
    pub end: usize,
}

/// An index as written: its level from 1, the end of its box, and its entries.
#[derive(Clone, Debug)]
pub struct WrittenIndex {
    pub level: usize,
    pub end: usize,
    pub entries: Vec<Covered>,
}

/// A leaf as written: where it lies, the ends of the boxes of its list, and the time that it covers.
#[derive(Clone, Debug)]
pub struct WrittenLeaf {
    pub at: usize,
    pub ends: Vec<usize>,
    pub start: u64,
    pub duration: u32,
}

#[derive(Clone, Debug, Default)]
pub struct Written {
    pub bytes: Vec<u8>,
    /// The timescale of the top index.
    pub scale: u32,
    pub fields: Vec<Field>,
    /// Where headers, boxes and the gap end.
    pub ends: Vec<usize>,
    pub indexes: Vec<WrittenIndex>,
    pub leaves: Vec<WrittenLeaf>,
}

/// The segment's bytes.
pub fn write(segment: &Segment) -> Written {
    let mut out = Written { scale: segment.top.scale, ..Written::default() };
    out.pieces(&segment.before);
    out.index(&segment.top, 1, &segment.gap);
    out.bytes.extend_from_slice(&segment.after);
    out
}

impl Written {
    fn field(&mut self, what: What, width: usize, value: u64) {
        self.fields.push(Field { what, at: self.bytes.len(), width });
        self.bytes.extend_from_slice(&value.to_be_bytes()[8 - width..]);
    }

    /// A header without its size, which `close` puts in. Gives where the box starts.
    fn open(&mut self, kind: Kind, wide: bool) -> usize {
        let at = self.bytes.len();
        self.field(What::Size, 4, u64::from(wide));
        self.field(What::Kind, 4, u64::from(u32::from_be_bytes(kind)));
        if wide {
            self.field(What::Large, 8, 0);
        }
        self.ends.push(self.bytes.len());
        at
    }

    fn close(&mut self, at: usize, wide: bool) {
        let size = self.bytes.len() - at;
        if wide {
            self.bytes[at + 8..at + 16].copy_from_slice(&(size as u64).to_be_bytes());
        } else {
            self.bytes[at..at + 4].copy_from_slice(&(size as u32).to_be_bytes());
        }
        self.ends.push(self.bytes.len());
    }

    fn pieces(&mut self, pieces: &[Piece]) {
        for piece in pieces {
            match piece {
                Piece::Raw(bytes) => self.bytes.extend_from_slice(bytes),
                Piece::Box { kind, wide, body } => {
                    let at = self.open(*kind, *wide);
                    self.body(body);
                    self.close(at, *wide);
                }
            }
        }
    }

    fn body(&mut self, body: &Body) {
        match body {
            Body::Bytes(bytes) => self.bytes.extend_from_slice(bytes),
            Body::Boxes(boxes) => self.pieces(boxes),
            Body::Styp { major, minor, brands } => {
                self.field(What::Major, 4, u64::from(*major));
                self.field(What::Minor, 4, u64::from(*minor));
                for brand in brands {
                    self.field(What::Brand, 4, u64::from(*brand));
                }
            }
            Body::Tfhd { flags, track, rest } => {
                self.field(What::HeadFlags, 4, u64::from(*flags));
                self.field(What::Track, 4, u64::from(*track));
                self.bytes.extend_from_slice(rest);
            }
            Body::Tfdt { version, flags, time } => {
                self.field(What::TimeVersion, 1, u64::from(*version));
                self.field(What::TimeFlags, 3, u64::from(*flags & 0xff_ffff));
                self.field(What::Decode, if *version == 0 { 4 } else { 8 }, *time);
            }
        }
    }

    /// An index of that level and all that it covers, with the gap between.
    fn index(&mut self, index: &Index, level: usize, gap: &[Piece]) {
        self.pieces(&index.ahead);
        let offset = index.beyond.wrapping_add(length(gap) as u64);
        let first_entry = self.index_box(index, offset);
        let number = self.indexes.len();
        self.indexes.push(WrittenIndex { level, end: self.bytes.len(), entries: Vec::new() });
        self.pieces(gap);
        let mut now = index.time;
        for (count, entry) in index.entries.iter().enumerate() {
            let covered = self.covered(entry, first_entry + 12 * count, level, now);
            self.indexes[number].entries.push(covered);
            now = now.saturating_add(u64::from(entry.duration));
        }
        self.pieces(&index.behind);
    }

    /// The box of an index, its entries without their sizes. Gives where the first entry stands.
    fn index_box(&mut self, index: &Index, offset: u64) -> usize {
        let at = self.open(*b"sidx", index.wide);
        let width = if index.version == 0 { 4 } else { 8 };
        self.field(What::Version, 1, u64::from(index.version));
        self.field(What::Flags, 3, u64::from(index.flags & 0xff_ffff));
        self.field(What::Id, 4, u64::from(index.id));
        self.field(What::Scale, 4, u64::from(index.scale));
        self.field(What::Time, width, index.time);
        self.field(What::Offset, width, offset);
        self.field(What::Reserved, 2, u64::from(index.reserved));
        self.field(What::Count, 2, index.entries.len() as u64);
        let first_entry = self.bytes.len();
        for entry in &index.entries {
            self.field(What::EntrySize, 4, 0);
            self.field(What::Duration, 4, u64::from(entry.duration));
            self.field(What::Sap, 4, u64::from(entry.sap));
        }
        self.bytes.extend_from_slice(&index.spare);
        self.close(at, index.wide);
        first_entry
    }

    /// What an entry covers; its size goes into the entry, which stands at `entry_at`.
    fn covered(&mut self, entry: &Entry, entry_at: usize, level: usize, now: u64) -> Covered {
        let at = self.bytes.len();
        match &entry.under {
            Under::Leaf(boxes) => {
                let mut ends = Vec::new();
                for piece in boxes {
                    self.pieces(std::slice::from_ref(piece));
                    ends.push(self.bytes.len());
                }
                self.leaves.push(WrittenLeaf { at, ends, start: now, duration: entry.duration });
            }
            Under::Index(inner) => self.index(inner, level + 1, &[]),
        }
        let end = self.bytes.len();
        let kind = u32::from(matches!(entry.under, Under::Index(_))) << 31;
        let word = kind | (end - at) as u32;
        self.bytes[entry_at..entry_at + 4].copy_from_slice(&word.to_be_bytes());
        Covered { entry_at, at, end }
    }
}

/// How many bytes these boxes have.
fn length(pieces: &[Piece]) -> usize {
    let mut out = Written::default();
    out.pieces(pieces);
    out.bytes.len()
}

/// The number that the bytes of a field spell.
pub fn value(bytes: &[u8], field: &Field) -> u64 {
    bytes[field.at..field.at + field.width].iter().fold(0, |so_far, byte| so_far << 8 | u64::from(*byte))
}

/// Sets a field, its number cut to the field's width.
pub fn set(bytes: &mut [u8], field: &Field, number: u64) {
    bytes[field.at..field.at + field.width].copy_from_slice(&number.to_be_bytes()[8 - field.width..]);
}

#[cfg(test)]
mod tests {
    use super::*;
    use crate::compare::grow;
    use crate::compare::random::Random;

    /// Segment S of document 01.
    fn segment_s() -> Segment {
        let brand = u32::from_be_bytes(*b"msdh");
        let styp = Piece::new(*b"styp", Body::Styp { major: brand, minor: 0, brands: vec![brand] });
        let leaf = |time| {
            let tfhd = Piece::new(*b"tfhd", Body::Tfhd { flags: 0, track: 1, rest: Vec::new() });
            let tfdt = Piece::new(*b"tfdt", Body::Tfdt { version: 0, flags: 0, time });
            let moof = Piece::new(*b"moof", Body::Boxes(vec![Piece::new(*b"traf", Body::Boxes(vec![tfhd, tfdt]))]));
            Under::Leaf(vec![moof, Piece::new(*b"mdat", Body::Bytes(vec![0; 4]))])
        };
        let entry = |duration, time| Entry { duration, sap: 2_415_919_104, under: leaf(time) };
        let top = Index {
            ahead: vec![],
            wide: false,
            version: 0,
            flags: 0,
            id: 1,
            scale: 1000,
            time: 5000,
            beyond: 0,
            reserved: 0,
            entries: vec![entry(2000, 100), entry(3000, 2100)],
            spare: vec![],
            behind: vec![],
        };
        Segment { wanted: brand, before: vec![styp], top, gap: vec![], after: vec![] }
    }

    #[test]
    fn segment_s_has_its_length_and_places() {
        let written = write(&segment_s());
        assert_eq!(written.bytes.len(), 196);
        assert_eq!(written.indexes[0].end, 76);
        let leaves: Vec<(usize, u64)> = written.leaves.iter().map(|leaf| (leaf.at, leaf.start)).collect();
        assert_eq!(leaves, [(76, 5000), (136, 7000)]);
        assert_eq!(written.bytes[44..56], [0, 0, 0, 0, 0, 0, 0, 2, 0, 0, 0, 60]);
    }

    #[test]
    fn fields_lie_inside_and_can_be_set() {
        let mut random = Random::new(5);
        for _ in 0..50 {
            let wish = grow::Wish::any(&mut random);
            let mut written = write(&grow::segment(&mut random, wish));
            assert!(written.ends.iter().all(|end| *end <= written.bytes.len()));
            for field in written.fields.clone() {
                set(&mut written.bytes, &field, 1);
                assert_eq!(value(&written.bytes, &field), 1);
            }
        }
    }
}
