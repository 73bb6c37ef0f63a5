//! A segment as data: boxes, indexes and entries as a tree. Sizes are not held; they follow when the tree is written.

/// The four bytes of a box's type.
pub type Kind = [u8; 4];

/// The types that are known somewhere.
pub const KNOWN: [Kind; 8] = [*b"styp", *b"sidx", *b"moof", *b"mdat", *b"traf", *b"tfhd", *b"tfdt", *b"tfad"];
/// The types that are known at the top level.
pub const AT_TOP: [Kind; 4] = [*b"styp", *b"sidx", *b"moof", *b"mdat"];
/// The types that are known in a `moof`.
pub const IN_MOOF: [Kind; 1] = [*b"traf"];
/// The types that are known in a `traf`.
pub const IN_TRAF: [Kind; 3] = [*b"tfhd", *b"tfdt", *b"tfad"];

/// A segment, and the brand that its reader wants.
#[derive(Clone, Debug)]
pub struct Segment {
    pub wanted: u32,
    /// `styp`, and the skipped boxes up to the top index.
    pub before: Vec<Piece>,
    pub top: Index,
    pub gap: Vec<Piece>,
    /// Bytes after the material: none in a segment that is right.
    pub after: Vec<u8>,
}

/// An index and all that it covers.
#[derive(Clone, Debug)]
pub struct Index {
    /// Boxes of its entry before the index: none in a segment that is right.
    pub ahead: Vec<Piece>,
    pub wide: bool,
    pub version: u8,
    pub flags: u32,
    pub id: u32,
    pub scale: u32,
    pub time: u64,
    /// What the first offset is beyond the length of the gap: 0 in a segment that is right.
    pub beyond: u64,
    pub reserved: u16,
    pub entries: Vec<Entry>,
    /// Bytes of the box behind its last entry: none in a segment that is right.
    pub spare: Vec<u8>,
    /// Boxes of its entry behind all that it indexes: none in a segment that is right.
    pub behind: Vec<Piece>,
}

#[derive(Clone, Debug)]
pub struct Entry {
    pub duration: u32,
    pub sap: u32,
    pub under: Under,
}

/// What an entry covers.
#[derive(Clone, Debug)]
pub enum Under {
    Leaf(Vec<Piece>),
    Index(Box<Index>),
}

/// A box, or bytes that are none.
#[derive(Clone, Debug)]
pub enum Piece {
    Box { kind: Kind, wide: bool, body: Body },
    Raw(Vec<u8>),
}

#[derive(Clone, Debug)]
pub enum Body {
    Bytes(Vec<u8>),
    Boxes(Vec<Piece>),
    Styp { major: u32, minor: u32, brands: Vec<u32> },
    Tfhd { flags: u32, track: u32, rest: Vec<u8> },
    Tfdt { version: u8, flags: u32, time: u64 },
}

impl Piece {
    pub fn new(kind: Kind, body: Body) -> Piece {
        Piece::Box { kind, wide: false, body }
    }

    pub fn is(&self, wanted: Kind) -> bool {
        matches!(self, Piece::Box { kind, .. } if *kind == wanted)
    }

    /// The boxes inside, if it is a container here.
    fn inside(&mut self, wanted: Kind) -> Option<&mut Vec<Piece>> {
        match self {
            Piece::Box { kind, body: Body::Boxes(boxes), .. } if *kind == wanted => Some(boxes),
            _ => None,
        }
    }
}

impl Index {
    /// The sum of its durations.
    pub fn durations(&self) -> u64 {
        self.entries.iter().map(|entry| u64::from(entry.duration)).sum()
    }

    /// Gives each index the start time at which it stands, this one `start`. Version 0 has 32 bits for it.
    pub fn set_times(&mut self, start: u64) {
        self.time = start;
        if start > u64::from(u32::MAX) && self.version == 0 {
            self.version = 1;
        }
        let mut now = start;
        for entry in &mut self.entries {
            if let Under::Index(inner) = &mut entry.under {
                inner.set_times(now);
            }
            now = now.saturating_add(u64::from(entry.duration));
        }
    }

    fn collect_inner<'a>(&'a mut self, into: &mut Vec<&'a mut Index>) {
        for entry in &mut self.entries {
            if let Under::Index(inner) = &mut entry.under {
                into.push(inner);
            }
        }
    }

    fn collect_leaves<'a>(&'a mut self, into: &mut Vec<&'a mut Vec<Piece>>) {
        for entry in &mut self.entries {
            match &mut entry.under {
                Under::Leaf(boxes) => into.push(boxes),
                Under::Index(inner) => inner.collect_leaves(into),
            }
        }
    }

    pub fn leaf_count(&self) -> usize {
        self.entries.iter().map(|entry| if let Under::Index(inner) = &entry.under { inner.leaf_count() } else { 1 }).sum()
    }
}

impl Segment {
    /// The boxes of each leaf.
    pub fn leaves(&mut self) -> Vec<&mut Vec<Piece>> {
        let mut found = Vec::new();
        self.top.collect_leaves(&mut found);
        found
    }

    /// The boxes of each `moof`.
    pub fn moofs(&mut self) -> Vec<&mut Vec<Piece>> {
        let boxes = self.leaves().into_iter().flatten();
        boxes.filter_map(|piece| piece.inside(*b"moof")).collect()
    }

    /// The boxes of each `traf`.
    pub fn trafs(&mut self) -> Vec<&mut Vec<Piece>> {
        let boxes = self.moofs().into_iter().flatten();
        boxes.filter_map(|piece| piece.inside(*b"traf")).collect()
    }

    /// Calls `change` with the index of that number: they are counted from 0, level by level from the top one.
    pub fn change_index(&mut self, number: usize, change: &mut dyn FnMut(&mut Index)) {
        let mut left = number;
        let mut level = vec![&mut self.top];
        while !level.is_empty() {
            if left < level.len() {
                return change(level.swap_remove(left));
            }
            left -= level.len();
            let mut next = Vec::new();
            for index in level {
                index.collect_inner(&mut next);
            }
            level = next;
        }
    }

    /// How many indexes there are with the top one.
    pub fn index_count(&self) -> usize {
        fn under(index: &Index) -> usize {
            let inner = index.entries.iter().map(|entry| if let Under::Index(inner) = &entry.under { under(inner) } else { 0 });
            1 + inner.sum::<usize>()
        }
        under(&self.top)
    }
}
