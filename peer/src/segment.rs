//! The segment as a tree: the boxes up to the top index, the gap, and what the entries cover, level by level.

use crate::fed::{spelled, Fed};
use crate::index::Index;
use crate::lent::Area;
use crate::tree::{Body, Boxes, Node, Stand, LIMIT};
use std::rc::Rc;

/// A segment, as far as its bytes have come.
#[derive(Clone, Debug)]
pub struct Segment {
    /// Up to the top index, which is its last box.
    pub opening: Boxes,
    /// The rest needs a top index that has ended and whose material fits (row 14).
    pub rest: Option<Rest>,
}

/// What comes after the top index.
#[derive(Clone, Debug)]
pub struct Rest {
    pub top: Top,
    pub gap: Boxes,
    pub material: Covering,
    /// How many leaves have begun.
    leaves: u64,
    /// The last decode time of the reference track that has come.
    last: Option<u64>,
}

/// What the top index says of the whole segment.
#[derive(Clone, Copy, Debug)]
pub struct Top {
    pub id: u64,
    pub scale: u64,
    pub start: u64,
    pub durations: u64,
    /// Where the material starts and ends (rule 2).
    pub from: u64,
    pub end: u64,
    count: u64,
}

impl Top {
    /// Nothing if row 14 refuses it. The sums are exact, whatever the first offset (R7), and over the entries as they came (R10).
    pub fn of(index: &Index) -> Option<Top> {
        let (id, scale, start, count) = (index.id?, index.scale?, index.time?, index.count?);
        let from = u128::from(index.end) + u128::from(index.offset?);
        let end = from + index.sizes.iter().map(|size| u128::from(*size)).sum::<u128>();
        let durations = index.durations.iter().sum();
        start.checked_add(durations)?;
        if end > u128::from(LIMIT) {
            return None;
        }
        Some(Top { id, scale, start, durations, from: u64::try_from(from).ok()?, end: u64::try_from(end).ok()?, count })
    }
}

/// What the entries of one index cover: bytes `from..end` and times `start..until`.
#[derive(Clone, Debug)]
pub struct Covering {
    /// The top index has level 1.
    pub level: u64,
    pub from: u64,
    pub end: u64,
    pub start: u64,
    pub until: u64,
    /// How many entries the index has.
    pub count: u64,
    /// Those whose first byte has come.
    pub entries: Vec<Entry>,
}

/// An entry whose first byte has come, and what it covers.
#[derive(Clone, Debug)]
pub struct Entry {
    pub slot: Slot,
    pub covered: Covered,
}

/// An entry as it was read back when its first byte came (R10), where it stands and at which time.
#[derive(Clone, Copy, Debug)]
pub struct Slot {
    pub pos: u64,
    pub start: u64,
    pub size: u64,
    pub duration: u64,
    pub sap: u64,
}

impl Slot {
    /// The entry that these bytes of the work area spell.
    pub fn of(stored: &[u8; 12], pos: u64, start: u64) -> Slot {
        let word = |at: usize| spelled(&stored[at..at + 4]);
        Slot { pos, start, size: word(0) & 0x7fff_ffff, duration: word(4), sap: word(8) }
    }

    /// Row 12 on a stored entry of an index that covers bytes up to `end` and times up to `until`.
    pub fn is_altered(&self, end: u64, until: u64, is_last: bool) -> bool {
        let (bytes_left, time_left) = (end.saturating_sub(self.pos), until.saturating_sub(self.start));
        if is_last {
            self.size == 0 || self.size != bytes_left || self.duration != time_left
        } else {
            self.size == 0 || self.size >= bytes_left || self.duration > time_left
        }
    }

    pub fn end(&self) -> u64 {
        self.pos + self.size
    }

    /// When the next one starts.
    pub fn until(&self) -> u64 {
        self.start.saturating_add(self.duration)
    }
}

#[derive(Clone, Debug)]
pub enum Covered {
    /// The stored entry cannot stand where it is (row 12), so what it covers cannot be told.
    Altered,
    Leaf(Rc<Leaf>),
    Inner(Box<Inner>),
}

/// An index entry's first box, and what the index there covers.
#[derive(Clone, Debug)]
pub struct Inner {
    pub first: Node,
    pub under: Option<Covering>,
}

#[derive(Clone, Debug)]
pub struct Leaf {
    /// Counted from 1.
    pub number: u64,
    pub boxes: Boxes,
    /// The last decode time of the reference track before this leaf.
    pub before: Option<u64>,
    /// Those of this leaf.
    pub times: Vec<DecodeTime>,
}

/// A decode time of the reference track.
#[derive(Clone, Copy, Debug)]
pub struct DecodeTime {
    /// The first byte of its `tfdt`.
    pub pos: u64,
    /// The last byte of its `tfdt`.
    pub at: u64,
    pub time: u64,
}

/// What goes along while the tree is extended.
struct Walk<'a, 'w> {
    fed: &'a Fed,
    /// How many bytes had come before.
    since: u64,
    area: &'a mut Area<'w>,
    /// The ID of the reference track (R9).
    id: u64,
    leaves: &'a mut u64,
    last: &'a mut Option<u64>,
}

impl Segment {
    pub fn new(brand: u64) -> Segment {
        Segment { opening: Boxes::opening(brand), rest: None }
    }

    /// The top index, once its header is whole.
    pub fn top_index(&self) -> Option<&Index> {
        self.opening.list.last().and_then(Node::index)
    }

    /// Takes the bytes from `since` on. The entry bytes among them go into the area, and entries come back from it.
    pub fn extend(&mut self, fed: &Fed, since: u64, area: &mut Area) {
        if self.rest.is_none() {
            self.opening.extend(fed);
            let Some(index) = self.top_index() else {
                return;
            };
            area.store(index, 1, fed, since);
            if index.has_ended(fed.count()) {
                self.rest = Top::of(index).map(|top| Rest::new(index.end, top));
            }
        }
        if let Some(rest) = &mut self.rest {
            rest.extend(fed, since, area);
        }
    }

    /// The leaves with their last byte in `since..until`, in their order, each with its entry.
    pub fn leaves(&self, since: u64, until: u64) -> Vec<(&Slot, &Leaf)> {
        let mut found = Vec::new();
        if let Some(rest) = &self.rest {
            rest.material.leaves(since, until, &mut found);
        }
        found
    }
}

impl Rest {
    fn new(index_end: u64, top: Top) -> Rest {
        let (from, end, until) = (top.from, top.end, top.start + top.durations);
        let material = Covering { level: 1, from, end, start: top.start, until, count: top.count, entries: Vec::new() };
        Rest { top, gap: Boxes::new(index_end, from, Stand::Gap), material, leaves: 0, last: None }
    }

    fn extend(&mut self, fed: &Fed, since: u64, area: &mut Area) {
        self.gap.extend(fed);
        let Rest { leaves, last, .. } = self;
        self.material.extend(&mut Walk { fed, since, area, id: self.top.id, leaves, last });
    }

    /// The last decode time of the leaves that have begun.
    pub fn last(&self) -> u64 {
        self.last.unwrap_or(0)
    }
}

impl Covering {
    /// Where the next entry starts, and when.
    pub fn next(&self) -> (u64, u64) {
        self.entries.last().map_or((self.from, self.start), |last| (last.slot.end(), last.slot.until()))
    }

    fn extend(&mut self, walk: &mut Walk) {
        loop {
            if let Some(last) = self.entries.last_mut() {
                last.extend(self.level, walk);
                if matches!(last.covered, Covered::Altered) || last.slot.end() > walk.fed.count() {
                    return;
                }
            }
            let (pos, _) = self.next();
            if self.entries.len() as u64 == self.count || pos >= walk.fed.count() {
                return;
            }
            let entry = self.read_back(walk);
            self.entries.push(entry);
        }
    }

    /// The next entry, as the work area has it now that its first byte has come (R10).
    fn read_back(&self, walk: &mut Walk) -> Entry {
        let (pos, start) = self.next();
        let stored = walk.area.entry(self.level, self.entries.len());
        let slot = Slot::of(&stored, pos, start);
        let is_last = self.entries.len() as u64 + 1 == self.count;
        let is_index = stored[0] >= 0x80;
        let covered = match (slot.is_altered(self.end, self.until, is_last), is_index) {
            (true, _) => Covered::Altered,
            (false, true) => Covered::Inner(Box::new(Inner::new(&slot, self.level + 1))),
            (false, false) => Covered::Leaf(Rc::new(Leaf::new(&slot, walk))),
        };
        Entry { slot, covered }
    }

    fn leaves<'a>(&'a self, since: u64, until: u64, found: &mut Vec<(&'a Slot, &'a Leaf)>) {
        for entry in self.since(since) {
            match &entry.covered {
                Covered::Altered => {}
                Covered::Leaf(leaf) if entry.slot.end() <= until => found.push((&entry.slot, leaf)),
                Covered::Leaf(_) => {}
                Covered::Inner(inner) => inner.under.iter().for_each(|under| under.leaves(since, until, found)),
            }
        }
    }

    /// The entries with a byte at or past `since`. An altered one of size 0 has its first byte all the same.
    pub fn since(&self, since: u64) -> &[Entry] {
        &self.entries[self.entries.partition_point(|entry| entry.slot.end().max(entry.slot.pos + 1) <= since)..]
    }
}

impl Entry {
    /// `level` is that of the index in which the entry stands.
    fn extend(&mut self, level: u64, walk: &mut Walk) {
        match &mut self.covered {
            Covered::Altered => {}
            Covered::Leaf(leaf) => Rc::make_mut(leaf).extend(walk),
            Covered::Inner(inner) => inner.extend(&self.slot, level + 1, walk),
        }
    }
}

impl Inner {
    fn new(slot: &Slot, level: u64) -> Inner {
        Inner { first: Node::new(slot.pos, slot.end(), Stand::Entry { level }), under: None }
    }

    fn extend(&mut self, slot: &Slot, level: u64, walk: &mut Walk) {
        if self.under.is_none() {
            self.first.extend(walk.fed);
            let Some(index) = self.first.index() else {
                return;
            };
            walk.area.store(index, level, walk.fed, walk.since);
            if index.has_ended(walk.fed.count()) && sums_fit(index, slot) {
                let (from, end, count) = (index.end, slot.end(), index.count.unwrap_or(0));
                self.under = Some(Covering { level, from, end, start: slot.start, until: slot.until(), count, entries: Vec::new() });
            }
        }
        if let Some(under) = &mut self.under {
            under.extend(walk);
        }
    }
}

/// Whether an inner index and its entry agree on size and duration (rule 4, R11).
pub fn sums_fit(index: &Index, slot: &Slot) -> bool {
    let sizes: u64 = index.sizes.iter().sum();
    index.durations.iter().sum::<u64>() == slot.duration && index.end - index.pos + sizes == slot.size
}

impl Leaf {
    fn new(slot: &Slot, walk: &mut Walk) -> Leaf {
        *walk.leaves += 1;
        Leaf { number: *walk.leaves, boxes: Boxes::new(slot.pos, slot.end(), Stand::Leaf), before: *walk.last, times: Vec::new() }
    }

    fn extend(&mut self, walk: &mut Walk) {
        self.boxes.extend(walk.fed);
        self.times.clear();
        for traf in self.boxes.list.iter().filter_map(Node::boxes).flat_map(|moof| moof.list.iter().filter_map(Node::boxes)) {
            self.times.extend(reference_times(traf, walk.id));
        }
        if let Some(last) = self.times.last() {
            *walk.last = Some(last.time);
        }
    }

    /// The last byte.
    pub fn last_byte(&self) -> u64 {
        self.boxes.end - 1
    }
}

/// Whether a `traf` is of the reference track (R9), once its track ID has come.
pub fn is_reference(traf: &Boxes, id: u64) -> Option<bool> {
    let track = traf.list.iter().find_map(|node| match &node.body {
        Body::Tfhd(tfhd) => Some(tfhd.track),
        _ => None,
    });
    Some(track?? == id)
}

/// The decode times in a `traf`, if it is of the reference track.
fn reference_times(traf: &Boxes, id: u64) -> Vec<DecodeTime> {
    if is_reference(traf, id) != Some(true) {
        return Vec::new();
    }
    let times = traf.list.iter().filter_map(|node| match &node.body {
        Body::Tfdt(tfdt) => Some(DecodeTime { pos: tfdt.pos, at: tfdt.end - 1, time: tfdt.time? }),
        _ => None,
    });
    times.collect()
}
