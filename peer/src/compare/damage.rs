//! Damage to segments as trees: all sizes around the damage still fit, so that the fault shows deep inside.

use super::grow::{other_kind, skipped};
use super::random::Random;
use super::shape::{Body, Index, Piece, Segment, Under, AT_TOP, KNOWN};

type InTree = fn(&mut Segment, &mut Random);

/// The ways to damage a tree, each with its weight.
const IN_TREE: [(u64, InTree); 22] = [
    (6, tfad_in_traf),
    (5, box_of_traf_again),
    (7, traf_lacks_box),
    (3, traf_turned_round),
    (3, tfad_ends_lacking_traf),
    (6, track_box_of_any_length),
    (4, decode_time_of_any_version),
    (12, decode_time_changed),
    (5, track_changed),
    (6, leaf_without_reference),
    (8, known_box_put_in),
    (4, bytes_that_are_no_box),
    (3, boxes_swapped),
    (3, box_removed),
    (4, type_changed),
    (14, index_field_changed),
    (5, entry_changed),
    (6, index_lengthened),
    (6, boxes_around_index),
    (4, styp_changed),
    (3, first_box_changed),
    (2, sums_past_the_end),
];

/// Damage that shows at the last byte of a leaf that ends with its `traf`.
const AT_LEAF_END: [InTree; 4] = [tfad_ends_lacking_traf, traf_lacks_box, decode_time_changed, leaf_without_reference];

/// Damages a tree in one of the ways.
pub fn in_tree(segment: &mut Segment, random: &mut Random) {
    random.weighted(&IN_TREE)(segment, random);
}

/// Damages a tree in a way that may show at the last byte of a leaf.
pub fn at_leaf_end(segment: &mut Segment, random: &mut Random) {
    random.pick(&AT_LEAF_END)(segment, random);
}

/// Puts a `sidx` of any length before the deepest index.
pub fn before_deepest_index(segment: &mut Segment, random: &mut Random) {
    let deepest = segment.index_count() - 1;
    let piece = index_of_any_length(random);
    segment.change_index(deepest, &mut |index| index.ahead.push(piece.clone()));
}

/// One of the lists that a segment has of a sort, if any.
fn one_of<'a>(mut lists: Vec<&'a mut Vec<Piece>>, random: &mut Random) -> Option<&'a mut Vec<Piece>> {
    if lists.is_empty() {
        return None;
    }
    let chosen = random.index(lists.len());
    Some(lists.swap_remove(chosen))
}

/// The boxes of one list: of a leaf, a `moof`, a `traf`, the gap, or those before the top index.
fn any_list<'a>(segment: &'a mut Segment, random: &mut Random) -> Option<&'a mut Vec<Piece>> {
    match random.below(10) {
        0..=3 => one_of(segment.leaves(), random),
        4..=5 => one_of(segment.moofs(), random),
        6..=7 => one_of(segment.trafs(), random),
        8 => Some(&mut segment.gap),
        _ => Some(&mut segment.before),
    }
}

fn insert(list: &mut Vec<Piece>, piece: Piece, random: &mut Random) {
    let at = random.index(list.len() + 1);
    list.insert(at, piece);
}

fn tfad_in_traf(segment: &mut Segment, random: &mut Random) {
    let length = random.count(0..=4);
    let tfad = Piece::Box { kind: *b"tfad", wide: random.chance(20), body: Body::Bytes(random.bytes(length)) };
    if let Some(traf) = one_of(segment.trafs(), random) {
        insert(traf, tfad, random);
    }
}

fn box_of_traf_again(segment: &mut Segment, random: &mut Random) {
    if let Some(traf) = one_of(segment.trafs(), random) {
        if !traf.is_empty() {
            let again = random.pick(traf);
            insert(traf, again, random);
        }
    }
}

fn traf_lacks_box(segment: &mut Segment, random: &mut Random) {
    let Some(traf) = one_of(segment.trafs(), random) else { return };
    match random.below(4) {
        0 => traf.retain(|piece| !piece.is(*b"tfhd")),
        1 | 2 => traf.retain(|piece| !piece.is(*b"tfdt")),
        _ => traf.clear(),
    }
}

fn traf_turned_round(segment: &mut Segment, random: &mut Random) {
    if let Some(traf) = one_of(segment.trafs(), random) {
        traf.reverse();
    }
}

/// The byte that ends such a `traf` shows two faults.
fn tfad_ends_lacking_traf(segment: &mut Segment, random: &mut Random) {
    let Some(traf) = one_of(segment.trafs(), random) else { return };
    let lacking = random.pick(&[*b"tfhd", *b"tfdt", *b"tfdt"]);
    traf.retain(|piece| !piece.is(lacking));
    let length = random.weighted(&[(3, 0), (1, 1)]);
    traf.push(Piece::new(*b"tfad", Body::Bytes(random.bytes(length))));
}

/// One of the boxes of a `traf` of that type.
fn box_of_traf<'a>(segment: &'a mut Segment, wanted: [u8; 4], random: &mut Random) -> Option<&'a mut Body> {
    let boxes = segment.trafs().into_iter().flatten();
    let mut bodies: Vec<&mut Body> = boxes
        .filter_map(|piece| match piece {
            Piece::Box { kind, body, .. } if *kind == wanted => Some(body),
            _ => None,
        })
        .collect();
    if bodies.is_empty() {
        return None;
    }
    let chosen = random.index(bodies.len());
    Some(bodies.swap_remove(chosen))
}

fn track_box_of_any_length(segment: &mut Segment, random: &mut Random) {
    let kind = random.pick(&[*b"tfhd", *b"tfdt"]);
    if let Some(body) = box_of_traf(segment, kind, random) {
        let mut bytes = vec![0; random.count(0..=14)];
        if let Some(version) = bytes.first_mut() {
            *version = random.pick(&[0, 1, 2]);
        }
        *body = Body::Bytes(bytes);
    }
}

fn decode_time_of_any_version(segment: &mut Segment, random: &mut Random) {
    if let Some(Body::Tfdt { version, .. }) = box_of_traf(segment, *b"tfdt", random) {
        *version = random.pick(&[2, 3, 128, 255]);
    }
}

fn decode_time_changed(segment: &mut Segment, random: &mut Random) {
    if let Some(Body::Tfdt { version, time, .. }) = box_of_traf(segment, *b"tfdt", random) {
        let any = random.number();
        *time = random.pick(&[0, 0, time.saturating_sub(1), time.wrapping_add(1), time.saturating_add(1 << 40), u64::MAX, any]);
        if *time > u64::from(u32::MAX) {
            *version = 1;
        }
    }
}

fn track_changed(segment: &mut Segment, random: &mut Random) {
    let id = segment.top.id;
    if let Some(Body::Tfhd { track, .. }) = box_of_traf(segment, *b"tfhd", random) {
        *track = random.pick(&[id, id, track.wrapping_add(1), 0]);
    }
}

fn leaf_without_reference(segment: &mut Segment, random: &mut Random) {
    let other = segment.top.id.wrapping_add(1);
    let Some(leaf) = one_of(segment.leaves(), random) else { return };
    match random.below(4) {
        0 => *leaf = vec![skipped(random, &AT_TOP)],
        1 => *leaf = vec![Piece::new(*b"moof", Body::Boxes(Vec::new()))],
        _ => leaf.iter_mut().for_each(|piece| change_tracks(piece, other)),
    }
}

fn change_tracks(piece: &mut Piece, other: u32) {
    if let Piece::Box { body, .. } = piece {
        match body {
            Body::Boxes(boxes) => boxes.iter_mut().for_each(|inside| change_tracks(inside, other)),
            Body::Tfhd { track, .. } => *track = other,
            _ => (),
        }
    }
}

/// A known box, allowed there or not, of a fitting length or not.
fn known_box_put_in(segment: &mut Segment, random: &mut Random) {
    let kind = random.pick(&KNOWN);
    let length = random.weighted(&[(20, 0), (10, 1), (10, 7), (20, 8), (10, 12), (10, 23), (20, 24), (10, 36)]);
    let mut body = vec![0; length];
    if random.chance(30) {
        body = random.bytes(length);
    }
    let piece = Piece::Box { kind, wide: random.chance(15), body: Body::Bytes(body) };
    if let Some(list) = any_list(segment, random) {
        if random.chance(30) {
            list.insert(0, piece);
        } else {
            insert(list, piece, random);
        }
    }
}

/// Bytes at the end of a list that are no box: too few for a header, too few for its 64-bit size, or a size of 0 or 2 to 7.
fn bytes_that_are_no_box(segment: &mut Segment, random: &mut Random) {
    let kind = other_kind(random).to_vec();
    let bytes = match random.below(3) {
        0 => vec![0; random.count(1..=7)],
        1 => [vec![0, 0, 0, 1], kind, vec![0; random.count(0..=7)]].concat(),
        _ => [vec![0, 0, 0, random.pick(&[0, 2, 3, 6, 7])], kind, vec![0; random.count(0..=8)]].concat(),
    };
    if random.chance(25) {
        if let Some(leaf) = one_of(segment.leaves(), random) {
            *leaf = vec![Piece::Raw(bytes)];
        }
    } else if let Some(list) = any_list(segment, random) {
        list.push(Piece::Raw(bytes));
    }
}

fn boxes_swapped(segment: &mut Segment, random: &mut Random) {
    if let Some(list) = any_list(segment, random) {
        if list.len() > 1 {
            let at = random.index(list.len() - 1);
            list.swap(at, at + 1);
        }
    }
}

fn box_removed(segment: &mut Segment, random: &mut Random) {
    if let Some(list) = any_list(segment, random) {
        if !list.is_empty() {
            list.remove(random.index(list.len()));
        }
    }
}

fn type_changed(segment: &mut Segment, random: &mut Random) {
    if let Some(list) = any_list(segment, random) {
        if !list.is_empty() {
            let at = random.index(list.len());
            if let Piece::Box { kind, .. } = &mut list[at] {
                *kind = other_kind(random);
            }
        }
    }
}

fn change_any_index(segment: &mut Segment, random: &mut Random, change: fn(&mut Index, &mut Random)) {
    let number = random.index(segment.index_count());
    segment.change_index(number, &mut |index| change(index, random));
}

fn index_field_changed(segment: &mut Segment, random: &mut Random) {
    change_any_index(segment, random, |index, random| match random.below(10) {
        0 => index.id = random.pick(&[0, index.id ^ 1, index.id.wrapping_add(1)]),
        1 => index.scale = random.pick(&[0, 0, index.scale ^ 1, index.scale.wrapping_add(1)]),
        2..=4 => {
            let any = random.number();
            index.time = random.pick(&[0, index.time.wrapping_add(1), index.time.wrapping_sub(1), any]);
            if index.time > u64::from(u32::MAX) {
                index.version = 1;
            }
        }
        5 | 6 => index.beyond = random.pick(&[1, 8, u64::MAX, 1 << 28, 1 << 32]),
        7 => index.version = random.pick(&[2, 3, 255]),
        8 => index.version ^= 1,
        _ => index.entries.clear(),
    });
}

fn entry_changed(segment: &mut Segment, random: &mut Random) {
    change_any_index(segment, random, |index, random| {
        if index.entries.is_empty() {
            return;
        }
        let at = random.index(index.entries.len());
        let entry = &mut index.entries[at];
        match random.below(4) {
            0 => entry.duration = entry.duration.wrapping_add(1),
            1 => entry.duration = entry.duration.wrapping_sub(1),
            2 => entry.under = Under::Leaf(Vec::new()),
            _ => index.entries.swap(0, at),
        }
    });
}

fn index_lengthened(segment: &mut Segment, random: &mut Random) {
    change_any_index(segment, random, |index, random| {
        let length = random.pick(&[1, 2, 8, 11, 12, 13, 24]);
        index.spare = random.bytes(length);
    });
}

fn boxes_around_index(segment: &mut Segment, random: &mut Random) {
    change_any_index(segment, random, |index, random| {
        let piece = match random.below(4) {
            0 => skipped(random, &AT_TOP),
            1 => Piece::new(random.pick(&AT_TOP), Body::Bytes(vec![0; random.pick(&[0, 8, 24])])),
            _ => index_of_any_length(random),
        };
        if random.chance(50) {
            index.ahead.push(piece);
        } else {
            index.behind.push(piece);
        }
    });
}

/// A `sidx` whose length may be none that a version has.
fn index_of_any_length(random: &mut Random) -> Piece {
    let mut body = vec![0; random.pick(&[0, 8, 23, 24, 25, 31, 32, 33, 36, 44])];
    if let Some(version) = body.first_mut() {
        *version = random.pick(&[0, 1, 1, 2]);
    }
    Piece::new(*b"sidx", Body::Bytes(body))
}

fn styp_changed(segment: &mut Segment, random: &mut Random) {
    let Some(Piece::Box { body, .. }) = segment.before.first_mut() else {
        return;
    };
    match (body, random.below(3)) {
        (Body::Styp { brands, .. }, 0) => brands.clear(),
        (Body::Styp { brands, .. }, 1) => brands.iter_mut().for_each(|brand| *brand ^= 1),
        (body, _) => *body = Body::Bytes(vec![0; random.pick(&[0, 1, 4, 7, 9, 10, 11, 13])]),
    }
}

fn first_box_changed(segment: &mut Segment, random: &mut Random) {
    match random.below(4) {
        // Another damage may have left no box before the top index.
        _ if segment.before.is_empty() => segment.before.push(skipped(random, &AT_TOP)),
        0 => {
            segment.before.remove(0);
        }
        1 => segment.before.reverse(),
        2 => segment.before.insert(0, skipped(random, &AT_TOP)),
        _ => {
            let again = segment.before[0].clone();
            insert(&mut segment.before, again, random);
        }
    }
}

/// Start and durations that end at 2^64 − 1, or just past it.
fn sums_past_the_end(segment: &mut Segment, random: &mut Random) {
    let start = u64::MAX - segment.top.durations();
    segment.top.set_times(start.saturating_add(random.below(3)));
}
