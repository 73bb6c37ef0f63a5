//! Damage to the bytes of segments: sizes around it do not fit any more, or other things than were written stand in fields.

use super::bytes::{self, Field, What, Written};
use super::grow::other_kind;
use super::random::Random;
use super::states::LIMIT;

type InBytes = fn(&mut Written, &mut Random);

/// The ways to damage bytes, each with its weight.
const IN_BYTES: [(u64, InBytes); 10] = [
    (30, field_set_to_edge),
    (15, size_changed),
    (8, type_overwritten),
    (8, cut_short),
    (8, bytes_appended),
    (8, bytes_moved_between_entries),
    (5, entries_swapped),
    (6, bytes_flipped),
    (4, bytes_taken_out),
    (4, material_to_the_limit),
];

/// Damages bytes in one of the ways.
pub fn in_bytes(written: &mut Written, random: &mut Random) {
    if !written.bytes.is_empty() {
        random.weighted(&IN_BYTES)(written, random);
    }
}

/// Whether the field is still there: another damage may have cut it off.
fn is_inside(written: &Written, field: &Field) -> bool {
    field.at + field.width <= written.bytes.len()
}

/// A field of the segment, chosen by what it is first.
fn any_field(written: &Written, random: &mut Random) -> Option<Field> {
    let inside: Vec<&Field> = written.fields.iter().filter(|field| is_inside(written, field)).collect();
    let mut kinds: Vec<What> = inside.iter().map(|field| field.what).collect();
    kinds.sort();
    kinds.dedup();
    if kinds.is_empty() {
        return None;
    }
    let what = random.pick(&kinds);
    let of_kind: Vec<&Field> = inside.into_iter().filter(|field| field.what == what).collect();
    Some(*of_kind[random.index(of_kind.len())])
}

fn field_of(written: &Written, wanted: &[What], random: &mut Random) -> Option<Field> {
    let fits = |field: &&Field| wanted.contains(&field.what) && is_inside(written, field);
    let found: Vec<&Field> = written.fields.iter().filter(fits).collect();
    if found.is_empty() {
        None
    } else {
        Some(*found[random.index(found.len())])
    }
}

fn field_set_to_edge(written: &mut Written, random: &mut Random) {
    let (Some(field), Some(other)) = (any_field(written, random), any_field(written, random)) else {
        return;
    };
    let now = bytes::value(&written.bytes, &field);
    let any = random.number();
    let others = bytes::value(&written.bytes, &other);
    let number = random.pick(&[0, 1, 2, u64::MAX, 1 << (8 * field.width - 1), now.wrapping_add(1), now.wrapping_sub(1), others, any]);
    bytes::set(&mut written.bytes, &field, number);
}

fn size_changed(written: &mut Written, random: &mut Random) {
    let Some(field) = field_of(written, &[What::Size, What::Size, What::Large, What::EntrySize], random) else {
        return;
    };
    let now = bytes::value(&written.bytes, &field);
    let by = random.within(1..=16);
    // Before the top index a box may end at the limit, and no later.
    let to_limit = LIMIT + random.below(2) - field.at as u64 + if field.what == What::Large { 8 } else { 0 };
    let edge = random.pick(&[0, 1, 2, 7, 8, 15, 16, to_limit]);
    let number = random.pick(&[edge, edge, now.wrapping_add(1), now.wrapping_sub(1), now.wrapping_add(by), now.wrapping_sub(by)]);
    bytes::set(&mut written.bytes, &field, number);
}

/// The top index gets an entry or a first offset with which the material ends at the limit, or one byte past it; or a first offset that
/// is so large that the sum would come round to a small one.
fn material_to_the_limit(written: &mut Written, random: &mut Random) {
    let Some(top) = written.indexes.first() else { return };
    let Some(end) = top.entries.last().map(|entry| entry.end) else { return };
    let more = LIMIT + random.below(2) - end as u64;
    let entry = Field { what: What::EntrySize, at: random.pick(&top.entries).entry_at, width: 4 };
    let offset = written.fields.iter().find(|field| field.what == What::Offset).copied();
    let field = if random.chance(50) { entry } else { offset.unwrap_or(entry) };
    let round = random.within(1..=end as u64).wrapping_neg();
    let more = if field.width == 8 && random.chance(40) { round } else { more };
    if is_inside(written, &field) {
        let now = bytes::value(&written.bytes, &field);
        bytes::set(&mut written.bytes, &field, now.wrapping_add(more));
    }
}

fn type_overwritten(written: &mut Written, random: &mut Random) {
    if let Some(field) = field_of(written, &[What::Kind], random) {
        let kind = other_kind(random);
        bytes::set(&mut written.bytes, &field, u64::from(u32::from_be_bytes(kind)));
    }
}

fn cut_short(written: &mut Written, random: &mut Random) {
    let at = random.index(written.bytes.len());
    written.bytes.truncate(at);
}

fn bytes_appended(written: &mut Written, random: &mut Random) {
    let count = random.weighted(&[(4, 1), (2, 7), (2, 8), (1, 40)]);
    let more = random.bytes(count);
    written.bytes.extend(more);
}

/// One entry grows and the next one shrinks by as much: by a few bytes, or so that the leaf ends at another box's end.
fn bytes_moved_between_entries(written: &mut Written, random: &mut Random) {
    let wide: Vec<usize> = (0..written.indexes.len()).filter(|number| written.indexes[*number].entries.len() > 1).collect();
    if wide.is_empty() {
        return;
    }
    let entries = &written.indexes[random.pick(&wide)].entries;
    let at = random.index(entries.len() - 1);
    let (one, next) = (entries[at], entries[at + 1]);
    let near: Vec<usize> = written.ends.iter().copied().filter(|end| *end > one.at && *end < next.end).collect();
    let end = if near.is_empty() || random.chance(30) { one.end + random.index(17) - 8 } else { random.pick(&near) };
    let by = (end as u32).wrapping_sub(one.end as u32);
    for (entry, by) in [(one, by), (next, by.wrapping_neg())] {
        let field = Field { what: What::EntrySize, at: entry.entry_at, width: 4 };
        if is_inside(written, &field) {
            let now = bytes::value(&written.bytes, &field) as u32;
            bytes::set(&mut written.bytes, &field, u64::from(now.wrapping_add(by)));
        }
    }
}

fn entries_swapped(written: &mut Written, random: &mut Random) {
    let entries: Vec<usize> = written.indexes.iter().flat_map(|index| index.entries.iter().map(|entry| entry.entry_at)).collect();
    if entries.is_empty() {
        return;
    }
    let (one, other) = (random.pick(&entries), random.pick(&entries));
    if one.max(other) + 12 <= written.bytes.len() {
        (0..12).for_each(|byte| written.bytes.swap(one + byte, other + byte));
    }
}

fn bytes_flipped(written: &mut Written, random: &mut Random) {
    for _ in 0..random.weighted(&[(6, 1), (3, 2), (1, 8)]) {
        let at = random.index(written.bytes.len());
        written.bytes[at] = if random.chance(50) { random.byte() } else { written.bytes[at] ^ 1 << random.below(8) };
    }
}

fn bytes_taken_out(written: &mut Written, random: &mut Random) {
    let at = random.index(written.bytes.len());
    let end = written.bytes.len().min(at + random.pick(&[1, 4, 8, 12]));
    written.bytes.drain(at..end);
}
