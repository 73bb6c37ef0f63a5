//! The faults that a tree shows: the rows of "Numbers given back", over the tree of module `segment`.
//!
//! Every fault is noted, with the byte at which it is met. Which of them is given is said once, by `first`.

use crate::index::{Index, MOST_ENTRIES};
use crate::segment::{sums_fit, Covered, Covering, Leaf, Segment, Slot, Top};
use crate::tree::{Body, Boxes, Header, Node, Stand, Styp, Tfdt, LIMIT, MDAT, MOOF, SIDX, STYP, TFAD, TFDT, TFHD};

#[derive(Clone, Copy, Debug, PartialEq, Eq)]
pub struct Fault {
    /// The byte at which it is met.
    pub at: u64,
    pub number: u64,
    pub place: u64,
}

/// The fault that is given: that of the earliest byte, and among those of one byte that of the lowest number (R2).
pub fn first(faults: &[Fault]) -> Option<Fault> {
    faults.iter().copied().min_by_key(|fault| (fault.at, fault.number))
}

/// The faults met at the bytes `since..count`. `room` is that of the table lent with these bytes (R12).
pub fn shown(segment: &Segment, since: u64, count: u64, room: u64) -> Vec<Fault> {
    let mut rows = Rows { since, count, room, found: Vec::new() };
    rows.note(3, LIMIT, LIMIT);
    rows.opening(&segment.opening);
    if let Some(rest) = &segment.rest {
        rows.gap(&rest.gap);
        rows.covering(&rest.material, &rest.top);
        rows.note(21, rest.top.end, rest.top.end);
    }
    rows.found
}

struct Rows {
    since: u64,
    count: u64,
    room: u64,
    found: Vec<Fault>,
}

impl Rows {
    /// A fault is shown once the byte at which it is met has come.
    fn note(&mut self, number: u64, at: u64, place: u64) {
        if self.since <= at && at < self.count {
            self.found.push(Fault { at, number, place });
        }
    }

    fn note_if(&mut self, is_fault: bool, number: u64, at: u64, place: u64) {
        if is_fault {
            self.note(number, at, place);
        }
    }

    fn opening(&mut self, opening: &Boxes) {
        for node in opening.since(self.since) {
            self.header(node);
            match &node.body {
                Body::Styp(styp) => self.brand(styp, node.header.pos),
                Body::Index(index) => {
                    self.index(index);
                    self.material(index);
                }
                _ => {}
            }
        }
    }

    fn gap(&mut self, gap: &Boxes) {
        for node in gap.since(self.since) {
            self.header(node);
        }
    }

    /// What every header may show.
    fn header(&mut self, node: &Node) {
        self.size(&node.header);
        if let Some(kind) = node.header.whole_kind() {
            self.body_length(node, kind);
            if node.stand.is_top_level() {
                self.top_level(node, kind);
            }
        }
    }

    /// Rows 4 and 5.
    fn size(&mut self, header: &Header) {
        let (pos, left) = (header.pos, header.left());
        self.note_if(left < 8, 5, pos, pos);
        self.note_if(header.size == Some(1) && left < 16, 5, pos + 7, pos);
        if let Some(size) = header.says() {
            self.note_if(size < header.length(), 4, header.h(), pos);
            self.note_if(size > left, 5, header.h(), pos);
        }
    }

    /// Row 6 at H.
    fn body_length(&mut self, node: &Node, kind: u64) {
        let header = &node.header;
        let body = header.says().and_then(|size| size.checked_sub(header.length()));
        self.note_if(body.is_some_and(|body| node.stand.is_misfit(kind, body)), 6, header.h(), header.pos);
    }

    /// Rows 7, 9 and 13 at H, but for an `mdat` in a leaf, which hangs on the boxes before it.
    fn top_level(&mut self, node: &Node, kind: u64) {
        let (h, pos) = (node.header.h(), node.header.pos);
        let is_first = matches!(node.stand, Stand::First { .. });
        self.note_if(is_first != (kind == STYP), 7, h, pos);
        let misplaced = match node.stand {
            Stand::First { .. } | Stand::Opening => kind == MOOF || kind == MDAT,
            Stand::Gap => kind == MOOF || kind == MDAT || kind == SIDX,
            Stand::Entry { .. } => kind != SIDX,
            Stand::Leaf => kind == SIDX,
            Stand::Moof | Stand::Traf => false,
        };
        self.note_if(misplaced, 9, h, pos);
        self.note_if(node.stand == Stand::Entry { level: 5 } && kind == SIDX, 13, h, pos);
    }

    /// Row 8.
    fn brand(&mut self, styp: &Styp, pos: u64) {
        self.note_if(!styp.listed, 8, styp.end - 1, pos);
    }

    /// Rows 6, 10 and 11 within an index, whatever its level.
    fn index(&mut self, index: &Index) {
        let pos = index.pos;
        if let Some(version) = index.version {
            self.note_if(version > 1, 10, index.from, pos);
            self.note_if(version == 1 && index.end - index.from < 32, 6, index.from, pos);
        }
        if let (Some(scale), Some((_, end))) = (index.scale, index.place(3)) {
            self.note_if(scale == 0, 11, end - 1, pos);
        }
        if let (Some(count), Some((_, end))) = (index.count, index.place(7)) {
            self.note_if(index.fits() == Some(false), 6, end - 1, pos);
            self.note_if(count == 0 || count > MOST_ENTRIES, 11, end - 1, pos);
        }
        if let Some(entries) = index.entries() {
            for (k, size) in (0..).zip(&index.sizes) {
                self.note_if(*size == 0, 11, entries + 12 * k + 3, pos);
            }
        }
    }

    /// Row 14, at the end of the top index.
    fn material(&mut self, index: &Index) {
        let too_far = index.has_ended(self.count) && Top::of(index).is_none();
        self.note_if(too_far, 14, index.end - 1, index.pos);
    }

    fn covering(&mut self, covering: &Covering, top: &Top) {
        for entry in covering.since(self.since) {
            match &entry.covered {
                Covered::Altered => self.note(12, entry.slot.pos, entry.slot.pos),
                Covered::Leaf(leaf) => self.leaf(leaf, entry.slot.pos),
                Covered::Inner(inner) => {
                    self.header(&inner.first);
                    if let Some(index) = inner.first.index() {
                        self.index(index);
                        self.inner_index(index, &entry.slot, top);
                    }
                    if let Some(under) = &inner.under {
                        self.covering(under, top);
                    }
                }
            }
        }
    }

    /// Row 12: rule 4. What its parent has is what the top index has, since the same held of the parent.
    fn inner_index(&mut self, index: &Index, slot: &Slot, top: &Top) {
        let fields = [(2, index.id, top.id), (3, index.scale, top.scale), (4, index.time, slot.start), (5, index.offset, 0)];
        for (field, has, wanted) in fields {
            if let (Some(has), Some((_, end))) = (has, index.place(field)) {
                self.note_if(has != wanted, 12, end - 1, index.pos);
            }
        }
        let misfit = index.has_ended(self.count) && !sums_fit(index, slot);
        self.note_if(misfit, 12, index.end - 1, index.pos);
    }

    fn leaf(&mut self, leaf: &Leaf, pos: u64) {
        let boxes = &leaf.boxes;
        let moof = boxes.list.iter().find(|node| node.is(MOOF)).map(|node| node.header.pos);
        for node in boxes.since(self.since) {
            let header = &node.header;
            self.header(node);
            self.note_if(node.is(MDAT) && moof.is_none_or(|moof| moof > header.pos), 9, header.h(), header.pos);
            if let Some(inside) = node.boxes() {
                self.moof(inside);
            }
        }
        self.room(leaf, pos);
        self.decode_times(leaf, pos);
    }

    /// Row 15. At a byte of an earlier call the room was that of the table lent with that call (R12).
    fn room(&mut self, leaf: &Leaf, pos: u64) {
        if leaf.number <= self.room {
            return;
        }
        if let Some(first) = leaf.boxes.list.first().filter(|first| first.header.says().is_some()) {
            self.note(15, first.header.h(), pos);
        }
        self.note(15, leaf.last_byte(), pos);
    }

    /// Rows 18 and 19.
    fn decode_times(&mut self, leaf: &Leaf, pos: u64) {
        let mut before = leaf.before;
        for time in &leaf.times {
            self.note_if(before.is_some_and(|before| time.time < before), 18, time.at, time.pos);
            before = Some(time.time);
        }
        self.note_if(leaf.times.is_empty(), 19, leaf.last_byte(), pos);
    }

    fn moof(&mut self, boxes: &Boxes) {
        for node in boxes.since(self.since) {
            self.header(node);
            if let Some(inside) = node.boxes() {
                self.traf(inside, node.header.pos);
            }
        }
    }

    /// Rows 16 and 17: one `tfhd`, then one `tfdt`, and no `tfad` (rule 6).
    fn traf(&mut self, boxes: &Boxes, pos: u64) {
        let (mut heads, mut times) = (0, 0);
        for node in &boxes.list {
            self.header(node);
            let (h, place) = (node.header.h(), node.header.pos);
            match node.header.whole_kind() {
                Some(TFHD) => {
                    self.note_if(heads > 0, 16, h, place);
                    heads += 1;
                }
                Some(TFDT) => {
                    self.note_if(heads == 0 || times > 0, 16, h, place);
                    times += 1;
                }
                Some(TFAD) => self.note(17, h, place),
                _ => {}
            }
            if let Body::Tfdt(tfdt) = &node.body {
                self.version(tfdt);
            }
        }
        self.note_if(boxes.is_full() && (heads == 0 || times == 0), 16, boxes.end - 1, pos);
    }

    /// Rows 6 and 10 at the version byte of a `tfdt`.
    fn version(&mut self, tfdt: &Tfdt) {
        if let Some(version) = tfdt.version {
            self.note_if(version > 1, 10, tfdt.from, tfdt.pos);
            self.note_if(version <= 1 && tfdt.width().is_none(), 6, tfdt.from, tfdt.pos);
        }
    }
}
