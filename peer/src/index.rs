//! The body of an index (`sidx`).

use crate::fed::Fed;

/// An index has at most so many entries (row 11).
pub const MOST_ENTRIES: u64 = 1024;

/// How many bytes an entry has.
pub const ENTRY: u64 = 12;

/// A field before the entries: where it starts in the body, and how many bytes it has.
#[derive(Clone, Copy, Debug)]
pub struct Field {
    pub from: u64,
    pub width: u64,
}

impl Field {
    /// The first byte after it in the body.
    pub fn end(self) -> u64 {
        self.from + self.width
    }
}

/// The fields in their order: version, flags, reference ID, timescale, earliest presentation time, first offset, reserved, count.
pub fn fields(wide: bool) -> [Field; 8] {
    let time = if wide { 8 } else { 4 };
    let mut from = 0;
    [1, 3, 4, 4, time, time, 2, 2].map(|width| {
        let field = Field { from, width };
        from += width;
        field
    })
}

/// An index, as far as it has come.
#[derive(Clone, Debug)]
pub struct Index {
    /// The first byte of its box.
    pub pos: u64,
    /// The first byte of its body.
    pub from: u64,
    pub end: u64,
    pub version: Option<u64>,
    pub id: Option<u64>,
    pub scale: Option<u64>,
    pub time: Option<u64>,
    pub offset: Option<u64>,
    pub count: Option<u64>,
    /// The sizes of the entries whose size has come, as the segment has them.
    pub sizes: Vec<u64>,
    /// The durations of the entries whose duration has come.
    pub durations: Vec<u64>,
}

impl Index {
    pub fn new(pos: u64, from: u64, end: u64) -> Index {
        let (version, id, scale, time, offset, count) = (None, None, None, None, None, None);
        Index { pos, from, end, version, id, scale, time, offset, count, sizes: Vec::new(), durations: Vec::new() }
    }

    /// Whether times have 64 bits; nothing for a version above 1 (row 10) and for version 1 in a body under 32 bytes (row 6).
    pub fn wide(&self) -> Option<bool> {
        match self.version? {
            0 => Some(false),
            1 if self.end - self.from >= 32 => Some(true),
            _ => None,
        }
    }

    /// The first byte of the field of this number, counted from 0, and the first byte after it.
    pub fn place(&self, field: usize) -> Option<(u64, u64)> {
        let field = fields(self.wide()?)[field];
        Some((self.from + field.from, self.from + field.end()))
    }

    /// Whether the length of the body is that of the count (row 6).
    pub fn fits(&self) -> Option<bool> {
        let (_, fields_end) = self.place(7)?;
        Some(self.end - fields_end == ENTRY * self.count?)
    }

    /// Where its entries start, if the count and the length allow any.
    pub fn entries(&self) -> Option<u64> {
        let count = self.count?;
        let (_, fields_end) = self.place(7)?;
        (self.fits()? && (1..=MOST_ENTRIES).contains(&count)).then_some(fields_end)
    }

    /// Whether its last byte is among the first `count`, and its entries could be told.
    pub fn has_ended(&self, count: u64) -> bool {
        self.entries().is_some() && self.end <= count
    }

    pub fn extend(&mut self, fed: &Fed) {
        fed.read_once(&mut self.version, self.from, 1);
        let Some(wide) = self.wide() else {
            return;
        };
        let [_, _, id, scale, time, offset, _, count] = fields(wide);
        let kept = [&mut self.id, &mut self.scale, &mut self.time, &mut self.offset, &mut self.count];
        for (number, field) in kept.into_iter().zip([id, scale, time, offset, count]) {
            fed.read_once(number, self.from + field.from, field.width);
        }
        if let (Some(entries), Some(count)) = (self.entries(), self.count) {
            read_column(&mut self.sizes, count, entries, 0x7fff_ffff, fed);
            read_column(&mut self.durations, count, entries + 4, 0xffff_ffff, fed);
        }
    }
}

/// Takes the numbers of one column of the entries, as far as they have come.
fn read_column(column: &mut Vec<u64>, count: u64, first: u64, mask: u64, fed: &Fed) {
    while (column.len() as u64) < count {
        let Some(number) = fed.number(first + ENTRY * column.len() as u64, 4) else {
            return;
        };
        column.push(number & mask);
    }
}
