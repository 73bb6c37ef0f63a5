//! The state as 57 numbers (docs/STATE.md), read off the tree: the next byte is looked up in it, and the numbers follow from where it
//! stands.
//!
//! What docs/STATE.md leaves open is not said, and stands as `None`:
//!
//! - of a `Draft`, each field whose last byte has not come, and the flag `wide` before the version
//! - of a `Seen` without a decode time yet, `first` and `last`
//! - the `Seen` of a leaf's list or of a `moof`'s list, while the box that is open in that list has given a decode time
//! - in the body of `styp`, the flag that tells whether `styp` was read
//! - in the body of a leaf's first `moof`, the flag that tells whether there was a `moof`
//! - in the body of a `tfhd`, the phase of its `traf`

use crate::calls::STATE_NUMBERS;
use crate::faults::Fault;
use crate::fed::{spelled, Fed};
use crate::index::{fields, Index, ENTRY};
use crate::reading::Reading;
use crate::segment::{is_reference, Covered, Covering, DecodeTime, Inner, Leaf, Rest, Slot, Top};
use crate::tree::{Body, Boxes, Node, Styp, Tfdt, Tfhd, MOOF};

/// Numbers of a state; `None` where the number cannot be said.
pub type Numbers = Vec<Option<u64>>;

/// The tags of the outcomes.
pub const READING: u64 = 1;
pub const ENDED: u64 = 2;
pub const REFUSED: u64 = 3;
pub const ACCEPTED: u64 = 4;

/// The state of start.
pub fn start(brand: u64) -> Numbers {
    whole(said(&[READING, 0, 0, 0, 0, 1, brand, 1, 0, 1]))
}

/// The state when all the material was read, or after an accepted finish.
pub fn ended(tag: u64, count: u64, leaves: u64, top: &Top) -> Numbers {
    whole(said(&[tag, count, leaves, top.id, top.scale, top.start, top.durations]))
}

/// The state of a kept refusal.
pub fn refused(count: u64, leaves: u64, fault: &Fault) -> Numbers {
    whole(said(&[REFUSED, count, leaves, fault.number, fault.place]))
}

/// The state of a reading.
pub fn reading(reading: &Reading) -> Numbers {
    let fed = &reading.fed;
    let (now, last, stage) = match &reading.segment.rest {
        None => (0, 0, opening(reading)),
        Some(rest) if fed.count() < rest.gap.end => (rest.top.start, 0, gap(rest, fed)),
        Some(rest) => material(rest, fed),
    };
    let mut numbers = said(&[READING, fed.count(), reading.leaves, now, last]);
    numbers.extend(stage);
    whole(numbers)
}

fn said(numbers: &[u64]) -> Numbers {
    numbers.iter().copied().map(Some).collect()
}

/// Blocks end to end.
fn joined(blocks: &[Numbers]) -> Numbers {
    blocks.concat()
}

/// A block of this length; what its case does not use is 0.
fn padded(mut block: Numbers, length: usize) -> Numbers {
    block.resize(length, Some(0));
    block
}

fn whole(numbers: Numbers) -> Numbers {
    padded(numbers, STATE_NUMBERS)
}

/// Where the next byte stands in a list of boxes.
enum Next<'a> {
    /// In the header of the box at this place.
    Head(u64),
    Body(&'a Node),
}

fn next<'a>(boxes: &'a Boxes, fed: &Fed) -> Next<'a> {
    match boxes.list.last() {
        Some(open) if !open.has_ended(fed.count()) => next_in(open),
        _ => Next::Head(boxes.next().unwrap_or(boxes.from)),
    }
}

fn next_in(open: &Node) -> Next<'_> {
    match open.header.says() {
        Some(_) => Next::Body(open),
        None => Next::Head(open.header.pos),
    }
}

/// `more` and `acc` of a number of `width` bytes that starts at `from`, the next byte being one of its bytes.
fn number(from: u64, width: u64, fed: &Fed) -> Numbers {
    let come = fed.count() - from;
    let acc = fed.slice(from, fed.count()).map(spelled);
    vec![(width - 1).checked_sub(come), acc]
}

/// `Head`: the header that starts at `pos`.
fn head(pos: u64, fed: &Fed) -> Numbers {
    let spelled = |from: u64| fed.number(pos + from, 4);
    match fed.count() - pos {
        0 => said(&[1]),
        1..4 => joined(&[said(&[2, pos]), number(pos, 4, fed)]),
        4..8 => joined(&[said(&[3, pos]), vec![spelled(0)], number(pos + 4, 4, fed)]),
        _ => joined(&[said(&[4, pos]), vec![spelled(4)], number(pos + 8, 8, fed)]),
    }
}

/// `Skip`: a body that ends here.
fn skip(stop: Option<u64>) -> Numbers {
    vec![Some(1), stop]
}

fn opening(reading: &Reading) -> Numbers {
    let (boxes, fed) = (&reading.segment.opening, &reading.fed);
    let styp_read = Some(u64::from(boxes.list.first().is_some_and(|first| first.has_ended(fed.count()))));
    let open = match next(boxes, fed) {
        Next::Head(pos) => joined(&[vec![Some(1), styp_read], head(pos, fed)]),
        Next::Body(node) => {
            let end = node.header.end();
            match &node.body {
                Body::Styp(body) => joined(&[vec![Some(2), None, Some(2)], styp(body, node.header.pos, fed)]),
                Body::Index(index) => joined(&[vec![Some(2), styp_read, Some(3)], span(index), sidx(index, fed)]),
                _ => joined(&[vec![Some(2), styp_read], skip(end)]),
            }
        }
    };
    joined(&[said(&[1, reading.brand]), open])
}

/// `Styp` after its tag: the body, by the number at which the next byte stands.
fn styp(styp: &Styp, pos: u64, fed: &Fed) -> Numbers {
    let nth = (fed.count() - styp.from) / 4;
    let part = nth.min(2) + 1;
    let block = said(&[pos, styp.end, part, u64::from(styp.listed)]);
    joined(&[block, number(styp.from + 4 * nth, 4, fed)])
}

fn span(index: &Index) -> Numbers {
    said(&[index.pos, index.end])
}

/// `Sidx`: the body of an index, by the field or the entry at which the next byte stands.
fn sidx(index: &Index, fed: &Fed) -> Numbers {
    let at = fed.count() - index.from;
    let fields = fields(index.wide() == Some(true));
    let draft = vec![index.wide().map(u64::from), index.id, index.scale, index.time, index.offset];
    match (1..).zip(fields).find(|(_, field)| at < field.end()) {
        Some((part, field)) => joined(&[said(&[1, part]), draft, number(index.from + field.from, field.width, fed)]),
        None => entry_of_index(index, draft, at - fields[7].end(), fed),
    }
}

/// `Sidx`: `Entry`, so many bytes after the entries' first.
fn entry_of_index(index: &Index, draft: Numbers, at: u64, fed: &Fed) -> Numbers {
    let (entry, within) = (at / ENTRY, at % ENTRY);
    let sums = vec![Some(entry), index.count, Some(index.sizes.iter().sum()), Some(index.durations.iter().sum())];
    joined(&[said(&[2, within / 4 + 1]), draft, sums, number(fed.count() - within % 4, 4, fed)])
}

fn top(top: &Top) -> Numbers {
    said(&[top.id, top.scale, top.start, top.durations])
}

/// `Level`: `next` is the entry after the last that was read back.
fn level(covering: &Covering) -> Numbers {
    said(&[covering.entries.len() as u64, covering.count, covering.end, covering.until])
}

fn gap(rest: &Rest, fed: &Fed) -> Numbers {
    let open = match next(&rest.gap, fed) {
        Next::Head(pos) => joined(&[said(&[1]), head(pos, fed)]),
        Next::Body(node) => vec![Some(2), node.header.end()],
    };
    joined(&[said(&[2]), top(&rest.top), level(&rest.material), said(&[rest.gap.end]), open])
}

/// `now`, `last` and the stage, once the gap was read.
fn material(rest: &Rest, fed: &Fed) -> (u64, u64, Numbers) {
    let mut levels = vec![&rest.material];
    loop {
        let innermost = levels[levels.len() - 1];
        let Some(open) = innermost.entries.last().filter(|entry| entry.slot.end() > fed.count()) else {
            let (_, now) = innermost.next();
            return (now, rest.last(), joined(&[said(&[3]), top(&rest.top), all_levels(&levels)]));
        };
        let (tag, last, boxes) = match &open.covered {
            Covered::Leaf(leaf) => (4, leaf.before.unwrap_or(0), leaf_boxes(leaf, rest.top.id, fed)),
            Covered::Inner(inner) => match &inner.under {
                Some(under) => {
                    levels.push(under);
                    continue;
                }
                None => (5, rest.last(), inner_box(inner, fed)),
            },
            Covered::Altered => (4, rest.last(), Numbers::new()),
        };
        return (open.slot.start, last, joined(&[said(&[tag]), top(&rest.top), all_levels(&levels), slot(&open.slot), boxes]));
    }
}

/// `Levels`: the top index first.
fn all_levels(levels: &[&Covering]) -> Numbers {
    let blocks: Vec<Numbers> = levels.iter().map(|covering| level(covering)).collect();
    padded(joined(&[said(&[levels.len() as u64]), joined(&blocks)]), 17)
}

fn slot(slot: &Slot) -> Numbers {
    said(&[slot.pos, slot.end(), slot.until(), slot.sap])
}

fn inner_box(inner: &Inner, fed: &Fed) -> Numbers {
    match (next_in(&inner.first), inner.first.index()) {
        (Next::Body(_), Some(index)) => joined(&[said(&[2]), span(index), sidx(index, fed)]),
        _ => joined(&[said(&[1]), head(inner.first.header.pos, fed)]),
    }
}

/// `Seen` by these decode times.
fn seen(times: &[DecodeTime]) -> Numbers {
    match (times.first(), times.last()) {
        (Some(first), Some(last)) => said(&[1, first.time, last.time]),
        _ => vec![Some(0), None, None],
    }
}

/// `Seen` of a list in which this box is open.
fn seen_around(times: &[DecodeTime], open: &Node) -> Numbers {
    let given_inside = times.last().is_some_and(|last| last.pos > open.header.pos);
    if given_inside {
        vec![None, None, None]
    } else {
        seen(times)
    }
}

fn leaf_boxes(leaf: &Leaf, id: u64, fed: &Fed) -> Numbers {
    let (boxes, times) = (&leaf.boxes, &leaf.times);
    let moof_before = |place: u64| boxes.list.iter().any(|node| node.is(MOOF) && node.header.pos < place);
    match next(boxes, fed) {
        Next::Head(pos) => joined(&[said(&[1, u64::from(moof_before(pos))]), seen(times), head(pos, fed)]),
        Next::Body(node) => {
            let (before, end) = (moof_before(node.header.pos), node.header.end());
            match node.boxes() {
                Some(inside) => {
                    let flag = before.then_some(1);
                    let moof = joined(&[vec![Some(2), end], moof_boxes(inside, times, id, fed)]);
                    joined(&[vec![Some(2), flag], seen_around(times, node), moof])
                }
                None => joined(&[said(&[2, u64::from(before)]), seen(times), skip(end)]),
            }
        }
    }
}

fn moof_boxes(boxes: &Boxes, times: &[DecodeTime], id: u64, fed: &Fed) -> Numbers {
    match next(boxes, fed) {
        Next::Head(pos) => joined(&[said(&[1]), seen(times), head(pos, fed)]),
        Next::Body(node) => {
            let (pos, end) = (node.header.pos, node.header.end());
            match node.boxes() {
                Some(inside) => {
                    let traf = joined(&[vec![Some(2), Some(pos), end], traf_boxes(inside, times, id, fed)]);
                    joined(&[said(&[2]), seen_around(times, node), traf])
                }
                None => joined(&[said(&[2]), seen(times), skip(end)]),
            }
        }
    }
}

fn traf_boxes(boxes: &Boxes, times: &[DecodeTime], id: u64, fed: &Fed) -> Numbers {
    match next(boxes, fed) {
        Next::Head(pos) => joined(&[said(&[1]), phase(boxes, id, fed), seen(times), head(pos, fed)]),
        Next::Body(node) => {
            let phase = if matches!(node.body, Body::Tfhd(_)) { vec![None, None] } else { phase(boxes, id, fed) };
            joined(&[said(&[2]), phase, seen(times), traf_body(node, id, fed)])
        }
    }
}

/// `TrafPhase`, by the boxes that have ended.
fn phase(boxes: &Boxes, id: u64, fed: &Fed) -> Numbers {
    let ended = || boxes.list.iter().filter(|node| node.has_ended(fed.count()));
    let block = if ended().any(|node| matches!(node.body, Body::Tfdt(_))) {
        said(&[3])
    } else if ended().any(|node| matches!(node.body, Body::Tfhd(_))) {
        vec![Some(2), is_reference(boxes, id).map(u64::from)]
    } else {
        said(&[1])
    };
    padded(block, 2)
}

fn traf_body(node: &Node, id: u64, fed: &Fed) -> Numbers {
    match &node.body {
        Body::Tfhd(body) => tfhd(body, id, fed),
        Body::Tfdt(body) => tfdt(body, fed),
        _ => skip(node.header.end()),
    }
}

/// `TrafBody` in a `tfhd`: version and flags, track ID, or the rest.
fn tfhd(tfhd: &Tfhd, id: u64, fed: &Fed) -> Numbers {
    let field = |part: u64, from: u64| joined(&[said(&[3, part, tfhd.end, 0]), number(from, 4, fed)]);
    match (fed.count() - tfhd.from, tfhd.track) {
        (0..4, _) => field(1, tfhd.from),
        (_, None) => field(2, tfhd.from + 4),
        (_, Some(track)) => said(&[2, tfhd.end, u64::from(track == id)]),
    }
}

/// `TrafBody` in a `tfdt`: version, flags, or decode time.
fn tfdt(tfdt: &Tfdt, fed: &Fed) -> Numbers {
    let width = tfdt.width().unwrap_or(4);
    match fed.count() - tfdt.from {
        0 => joined(&[said(&[3, 3, tfdt.pos, tfdt.end]), number(tfdt.from, 1, fed)]),
        1..4 => joined(&[said(&[3, 4, tfdt.pos, u64::from(width == 8)]), number(tfdt.from + 1, 3, fed)]),
        _ => joined(&[said(&[3, 5, tfdt.pos, 0]), number(tfdt.from + 4, width, fed)]),
    }
}
