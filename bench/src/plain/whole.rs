//! The reader of a segment that is in memory, by its structure.

use super::boxes::{bad_styp_length, decode_time, header, misplaced, next_box, BoxRead, Fault, Header, Stop};
use super::boxes::{MDAT, MOOF, SIDX, STYP, TFAD, TFDT, TFHD, TRAF};
use super::index::{entries, fields, sums, Entry, Fields, Parent, Sums};
use super::{fed, refusal, Leaf, Listing, Refusal, LIMIT, MOST_LEAVES, MOST_LEVELS};
use std::slice::IterMut;

/// Reads a whole segment and lists its leaves.
pub fn whole(segment: &[u8], brand: [u8; 4], leaves: &mut [Leaf]) -> Result<Listing, Refusal> {
    // A segment that ends before its material does is refused in any case. Only the reader fed in pieces has to know how far a box can be
    // read that is not all there, so it says with which number.
    let Some(Opening { index, entries, start, end }) = opening(segment, brand)? else {
        return Err(fed::cut_segment(segment, brand, leaves));
    };
    let mut reading = Reading::new(leaves);
    let room = reading.room.len();
    reading.begin(&index);
    reading.place = start as u64;
    reading.under(entries, &segment[start..end], MOST_LEVELS - 1).map_err(|fault| fault.refused(segment, 0))?;
    if segment.len() > end {
        return Err(refusal(if end == LIMIT { 3 } else { 21 }, end));
    }
    Ok(Listing { leaves: room - reading.room.len(), timescale: index.timescale })
}

/// The top index, the bytes of its entries, and where the material starts and ends.
struct Opening<'a> {
    index: Fields,
    entries: &'a [u8],
    start: usize,
    end: usize,
}

/// Reads what stands before the material. None where the segment ends before the material does.
fn opening(segment: &[u8], brand: [u8; 4]) -> Result<Option<Opening<'_>>, Refusal> {
    let Some((place, top)) = top_box(segment, brand)? else { return Ok(None) };
    let index_end = place + top.size;
    let Some(body) = segment.get(place + top.length..index_end) else { return Ok(None) };
    let (index, entries, sums) = index(body, None).map_err(|number| refusal(number, place))?;
    let (start, end) = material_range(index_end, &index, &sums).ok_or(refusal(14, place))?;
    if segment.len() < end {
        return Ok(None);
    }
    gap(&segment[index_end..start]).map_err(|fault| fault.refused(segment, 0))?;
    Ok(Some(Opening { index, entries, start, end }))
}

/// Finds the top index, behind the `styp` and skipped boxes; nothing but the limit ends the list of these. None where the segment ends
/// before its header does.
fn top_box(segment: &[u8], brand: [u8; 4]) -> Result<Option<(usize, Header)>, Refusal> {
    let Some(styp) = opening_header(segment, 0)? else { return Ok(None) };
    let Some(body) = segment.get(styp.length..styp.size) else { return Ok(None) };
    if !body[8..].chunks_exact(4).any(|listed| listed == brand) {
        return Err(refusal(8, 0));
    }
    let mut place = styp.size;
    while let Some(found) = opening_header(segment, place)? {
        if found.kind == SIDX {
            return Ok(Some((place, found)));
        }
        place += found.size;
    }
    Ok(None)
}

/// Reads a header before the material. None where the segment ends before it does.
fn opening_header(segment: &[u8], place: usize) -> Result<Option<Header>, Refusal> {
    let rest = segment.get(place..).unwrap_or_default();
    let found = match header(rest, LIMIT - place) {
        Ok(found) => found,
        Err(Stop::Fault(_)) if place == LIMIT => return Err(refusal(3, place)),
        Err(Stop::Fault(number)) => return Err(refusal(number, place)),
        Err(Stop::More) => return Ok(None),
    };
    match opening_fault(found.kind, found.body(), place == 0) {
        Some(number) => Err(refusal(number, place)),
        None => Ok(Some(found)),
    }
}

/// What a header before the material shows. The first box is a `styp`, and no later one.
pub(super) fn opening_fault(kind: u32, body: usize, first: bool) -> Option<u32> {
    match kind {
        STYP if bad_styp_length(body) => Some(6),
        SIDX if body < 24 => Some(6),
        STYP => (!first).then_some(7),
        _ if first => Some(7),
        MOOF | MDAT => Some(9),
        _ => None,
    }
}

/// Reads an index: its fields, the bytes of its entries, and what these come to.
fn index<'a>(body: &'a [u8], parent: Option<&Parent>) -> Result<(Fields, &'a [u8], Sums), u32> {
    let index = fields(body, body.len(), parent).map_err(Stop::number)?;
    let entries = &body[index.length..];
    Ok((index, entries, sums(entries).map_err(Stop::number)?))
}

/// Where the material starts and ends. None where it ends past the limit, or its time past 64 bits; the first offset may have as many.
pub(super) fn material_range(index_end: usize, index: &Fields, sums: &Sums) -> Option<(usize, usize)> {
    index.start.checked_add(sums.durations)?;
    let start = index.offset.checked_add(index_end as u64)?;
    let end = start.checked_add(sums.sizes).filter(|end| *end <= LIMIT as u64)?;
    Some((start as usize, end as usize))
}

/// Reads the gap between the top index and the material.
fn gap(mut list: &[u8]) -> Result<(), Fault> {
    while let Some(BoxRead { kind, body, rest, .. }) = next_box(list)? {
        if matches!(kind, STYP | SIDX | MOOF | MDAT) {
            return Err(Fault::at(list, misplaced(kind, body.len())));
        }
        list = rest;
    }
    Ok(())
}

/// How far the reading of the material has come.
pub(super) struct Reading<'a> {
    /// The records not yet written.
    pub room: IterMut<'a, Leaf>,
    pub id: u32,
    pub timescale: u32,
    /// The place and the start time of the next leaf or index.
    pub place: u64,
    pub time: u64,
    /// The last decode time of the reference track, 0 before the first one, since none falls below that.
    pub decode: u64,
}

impl<'a> Reading<'a> {
    pub fn new(leaves: &'a mut [Leaf]) -> Reading<'a> {
        let room = leaves.len().min(MOST_LEAVES);
        Reading { room: leaves[..room].iter_mut(), id: 0, timescale: 0, place: 0, time: 0, decode: 0 }
    }

    /// Takes what the top index says of all the material.
    pub fn begin(&mut self, top: &Fields) {
        (self.id, self.timescale, self.time) = (top.id, top.timescale, top.start);
    }

    /// Reads what the entries of an index cover. `levels` is how many more may stand under this index.
    fn under(&mut self, index: &[u8], mut covered: &[u8], levels: usize) -> Result<(), Fault> {
        for entry in entries(index) {
            let (bytes, rest) = covered.split_at(entry.size());
            if entry.is_leaf() {
                self.leaf(&entry, bytes)?;
            } else {
                self.inner(&entry, bytes, levels)?;
            }
            covered = rest;
        }
        Ok(())
    }

    fn inner(&mut self, entry: &Entry, covered: &[u8], levels: usize) -> Result<(), Fault> {
        let Some(BoxRead { kind, body, rest, .. }) = next_box(covered)? else { unreachable!("no entry has size 0") };
        if kind != SIDX || body.len() < 24 {
            return Err(Fault::at(covered, misplaced(kind, body.len())));
        }
        if levels == 0 {
            return Err(Fault::at(covered, 13));
        }
        let parent = Parent { id: self.id, timescale: self.timescale, start: self.time };
        let (_, entries, sums) = index(body, Some(&parent)).map_err(|number| Fault::at(covered, number))?;
        if sums.durations != u64::from(entry.duration) || sums.sizes != rest.len() as u64 {
            return Err(Fault::at(covered, 12));
        }
        self.place += (covered.len() - rest.len()) as u64;
        self.under(entries, rest, levels - 1)
    }

    /// Reads a leaf. It is small and there are many: without calls in between, each costs a tenth less.
    #[inline(always)]
    pub fn leaf(&mut self, entry: &Entry, leaf: &[u8]) -> Result<(), Fault> {
        let Some(record) = self.room.next() else { return Err(beyond_room(leaf)) };
        let (mut list, mut moof_seen, mut first) = (leaf, false, None);
        while let Some(BoxRead { kind, body, rest, .. }) = next_box(list)? {
            match kind {
                MOOF => {
                    moof_seen = true;
                    self.moof(body, &mut first)?;
                }
                MDAT if moof_seen => {}
                MDAT | STYP | SIDX => return Err(Fault::at(list, misplaced(kind, body.len()))),
                _ => {}
            }
            list = rest;
        }
        let decode = first.ok_or(Fault::at(leaf, 19))?;
        self.write(record, entry, decode);
        Ok(())
    }

    /// Writes the record of a leaf that is accepted.
    pub fn write(&mut self, record: &mut Leaf, entry: &Entry, decode: u64) {
        let (size, duration, sap) = (entry.size() as u64, entry.duration.into(), entry.sap.into());
        *record = Leaf { position: self.place, size, start: self.time, duration, sap, decode };
        self.place += size;
        self.time += duration;
    }

    #[inline(always)]
    fn moof(&mut self, mut list: &[u8], first: &mut Option<u64>) -> Result<(), Fault> {
        while let Some(BoxRead { kind, body, rest, .. }) = next_box(list)? {
            if kind == TRAF {
                self.traf(list, body, first)?;
            }
            list = rest;
        }
        Ok(())
    }

    /// Reads a `traf`: one `tfhd`, then one `tfdt`, and no more of them.
    #[inline(always)]
    fn traf(&mut self, traf: &[u8], body: &[u8], first: &mut Option<u64>) -> Result<(), Fault> {
        let tfhd = wanted(body, Some(TFHD), traf)?.ok_or(Fault::at(traf, 16))?;
        let tfdt = wanted(tfhd.rest, Some(TFDT), traf)?.ok_or(Fault::at(traf, 16))?;
        let time = decode_time(tfdt.body).map_err(|number| Fault::at(tfdt.list, number))?;
        let [_, _, _, _, a, b, c, d, ..] = *tfhd.body else { unreachable!("a tfhd has at least 8 bytes") };
        if u32::from_be_bytes([a, b, c, d]) == self.id {
            if time < self.decode {
                return Err(Fault::at(tfdt.list, 18));
            }
            self.decode = time;
            first.get_or_insert(time);
        }
        wanted(tfdt.rest, None, traf).map(|_| ())
    }
}

/// Goes on in a `traf` up to the `tfhd` or `tfdt` wanted, or to its end where neither is. None where the `traf` ends before.
#[inline(always)]
fn wanted<'a>(mut list: &'a [u8], wanted: Option<u32>, traf: &[u8]) -> Result<Option<BoxRead<'a>>, Fault> {
    while let Some(found) = next_box(list)? {
        match found.kind {
            kind if Some(kind) == wanted && found.body.len() >= 8 => return Ok(Some(found)),
            TFHD | TFDT => return Err(Fault::at(list, if found.body.len() < 8 { 6 } else { 16 })),
            // Where nothing follows, the same byte shows that the `traf` lacks something; that number is lower.
            TFAD if wanted.is_some() && found.body.is_empty() && found.rest.is_empty() => return Err(Fault::at(traf, 16)),
            TFAD => return Err(Fault::at(list, 17)),
            _ => list = found.rest,
        }
    }
    Ok(None)
}

/// The fault of a leaf for which there is no room: 15, unless the header of its first box shows a lower number.
#[cold]
fn beyond_room(leaf: &[u8]) -> Fault {
    match next_box(leaf) {
        Err(fault) => fault,
        Ok(Some(BoxRead { kind: kind @ (MDAT | STYP | SIDX), body, .. })) => Fault::at(leaf, misplaced(kind, body.len())),
        Ok(_) => Fault::at(leaf, 15),
    }
}
