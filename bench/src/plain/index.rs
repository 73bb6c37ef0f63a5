//! The index box.

use super::boxes::{byte_at, u16_at, u32_at, u64_at, Stop};

/// How many bytes an entry has.
pub const ENTRY: usize = 12;

/// The most entries of an index.
pub const MOST_ENTRIES: usize = 1024;

/// What an inner index has to agree with: its parent's reference ID and timescale, and the start time at which its entry stands.
#[derive(Clone, Copy)]
pub struct Parent {
    pub id: u32,
    pub timescale: u32,
    pub start: u64,
}

/// The fields before the entries. `length` is how many bytes they have.
#[derive(Clone, Copy, Default)]
pub struct Fields {
    pub id: u32,
    pub timescale: u32,
    pub start: u64,
    pub offset: u64,
    pub count: usize,
    pub length: usize,
}

#[derive(Clone, Copy, Default)]
pub struct Entry {
    /// Type (1 bit) and size (31).
    pub word: u32,
    pub duration: u32,
    pub sap: u32,
}

impl Entry {
    #[inline]
    pub fn of(bytes: &[u8; ENTRY]) -> Entry {
        let [a, b, c, d, e, f, g, h, sap @ ..] = *bytes;
        let (word, duration) = (u32::from_be_bytes([a, b, c, d]), u32::from_be_bytes([e, f, g, h]));
        Entry { word, duration, sap: u32::from_be_bytes(sap) }
    }

    pub fn is_leaf(&self) -> bool {
        self.word >> 31 == 0
    }

    pub fn size(&self) -> usize {
        (self.word & 0x7fff_ffff) as usize
    }
}

/// The entries that the bytes hold whole.
pub fn entries(bytes: &[u8]) -> impl Iterator<Item = Entry> + '_ {
    bytes.chunks_exact(ENTRY).map(|entry| Entry::of(entry.try_into().expect("a chunk has the length of an entry")))
}

/// Reads the fields in their order from the bytes that are there; `body` is how many the box says it has. A top index has no parent.
pub fn fields(bytes: &[u8], body: usize, parent: Option<&Parent>) -> Result<Fields, Stop> {
    let length = match byte_at(bytes, 0)? {
        0 => 24,
        1 if body < 32 => return Err(Stop::Fault(6)),
        1 => 32,
        _ => return Err(Stop::Fault(10)),
    };
    let id = u32_at(bytes, 4)?;
    expect(parent.is_none_or(|parent| id == parent.id), 12)?;
    let timescale = u32_at(bytes, 8)?;
    expect(timescale != 0, 11)?;
    expect(parent.is_none_or(|parent| timescale == parent.timescale), 12)?;
    let start = if length == 24 { u64::from(u32_at(bytes, 12)?) } else { u64_at(bytes, 12)? };
    expect(parent.is_none_or(|parent| start == parent.start), 12)?;
    let offset = if length == 24 { u64::from(u32_at(bytes, 16)?) } else { u64_at(bytes, 20)? };
    expect(parent.is_none() || offset == 0, 12)?;
    let count = usize::from(u16_at(bytes, length - 2)?);
    expect(body == length + ENTRY * count, 6)?;
    expect((1..=MOST_ENTRIES).contains(&count), 11)?;
    Ok(Fields { id, timescale, start, offset, count, length })
}

fn expect(holds: bool, number: u32) -> Result<(), Stop> {
    if holds {
        Ok(())
    } else {
        Err(Stop::Fault(number))
    }
}

/// What the entries come to.
#[derive(Clone, Copy, Default)]
pub struct Sums {
    pub sizes: u64,
    pub durations: u64,
}

impl Sums {
    /// Adds an entry, whose size may not be 0.
    #[inline]
    pub fn add(&mut self, entry: &Entry) -> Result<(), Stop> {
        self.sizes += entry.size() as u64;
        self.durations += u64::from(entry.duration);
        expect(entry.size() != 0, 11)
    }
}

/// The sums of an index's entries, which are all there.
pub fn sums(bytes: &[u8]) -> Result<Sums, Stop> {
    let mut sums = Sums::default();
    for entry in entries(bytes) {
        sums.add(&entry)?;
    }
    Ok(sums)
}

/// Why an entry is not read of which there are too few bytes: its size may show a fault all the same.
pub fn cut_entry(bytes: &[u8]) -> Stop {
    match u32_at(bytes, 0) {
        Ok(word) if word & 0x7fff_ffff == 0 => Stop::Fault(11),
        _ => Stop::More,
    }
}
