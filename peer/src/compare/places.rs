//! Where the headers, the number fields and the boxes of a segment end, found by walking its bytes, and cuttings at these places.
//! What was damaged is walked as it now stands, and as far as that goes.

use super::random::Random;

/// The most places at which one reading is cut.
const MOST: usize = 40;

/// What a list of boxes stands in: a box is known by its type and by this.
#[derive(Clone, Copy, PartialEq)]
enum Within {
    Segment,
    Moof,
    Traf,
}

struct Walk<'a> {
    bytes: &'a [u8],
    ends: Vec<usize>,
}

/// The ends of all headers, number fields and boxes and of what entries cover, in order, each once.
pub fn ends(bytes: &[u8]) -> Vec<usize> {
    let mut walk = Walk { bytes, ends: Vec::new() };
    walk.boxes(Within::Segment, 0, bytes.len());
    let mut ends = walk.ends;
    ends.retain(|end| (1..=bytes.len()).contains(end));
    ends.sort();
    ends.dedup();
    ends
}

impl Walk<'_> {
    fn number(&self, at: usize, width: usize) -> Option<u64> {
        let bytes = self.bytes.get(at..at + width)?;
        Some(bytes.iter().fold(0, |so_far, byte| so_far << 8 | u64::from(*byte)))
    }

    /// Fields of these widths, one after the other. Gives where the last one ends.
    fn fields(&mut self, mut at: usize, widths: &[usize]) -> usize {
        for width in widths {
            at += width;
            self.ends.push(at);
        }
        at
    }

    fn boxes(&mut self, within: Within, mut at: usize, end: usize) {
        while at < end {
            at = self.one_box(within, at, end);
        }
    }

    /// A box and what stands in it; gives its end. One with a size that it cannot have is taken to go on up to `end`.
    fn one_box(&mut self, within: Within, at: usize, end: usize) -> usize {
        let mut body = self.fields(at, &[4, 4]);
        let mut size = self.number(at, 4);
        if size == Some(1) {
            body = self.fields(body, &[8]);
            size = self.number(at + 8, 8);
        }
        let after = size.and_then(|size| at.checked_add(usize::try_from(size).ok()?));
        let after = after.filter(|after| (body..=end).contains(after)).unwrap_or(end);
        self.ends.push(after);
        if let Some(kind) = self.bytes.get(at + 4..at + 8) {
            let kind = [kind[0], kind[1], kind[2], kind[3]];
            self.body(within, &kind, body, after);
        }
        after
    }

    fn body(&mut self, within: Within, kind: &[u8; 4], at: usize, end: usize) {
        match (within, kind) {
            (Within::Segment, b"styp") => {
                let mut at = at;
                while at < end {
                    at = self.fields(at, &[4]);
                }
            }
            (Within::Segment, b"sidx") => self.index(at, end),
            (Within::Segment, b"moof") => self.boxes(Within::Moof, at, end),
            (Within::Moof, b"traf") => self.boxes(Within::Traf, at, end),
            (Within::Traf, b"tfhd") => {
                self.fields(at, &[4, 4]);
            }
            (Within::Traf, b"tfdt") => {
                let width = self.width(at);
                self.fields(at, &[1, 3, width]);
            }
            _ => (),
        }
    }

    /// How wide the times are in a box whose version stands there.
    fn width(&self, at: usize) -> usize {
        if self.number(at, 1) == Some(0) {
            4
        } else {
            8
        }
    }

    /// The fields of an index that ends at `end`, those of its entries, and what these cover.
    fn index(&mut self, at: usize, end: usize) {
        let width = self.width(at);
        let offset = self.number(at + 12 + width, width).unwrap_or(0);
        let count = self.number(at + 14 + 2 * width, 2).unwrap_or(0);
        let mut entry = self.fields(at, &[1, 3, 4, 4, width, width, 2, 2]);
        let mut covered = (end as u64).saturating_add(offset);
        for _ in 0..count {
            if entry >= end {
                break;
            }
            let size = self.number(entry, 4).unwrap_or(0) & 0x7fff_ffff;
            covered = covered.saturating_add(size);
            self.ends.extend(usize::try_from(covered));
            entry = self.fields(entry, &[4, 4, 4]);
        }
    }
}

/// Cuts one byte before, at or after such an end, at two of them, or at all: of very many, at some in a row.
pub fn cuts(random: &mut Random, bytes: &[u8]) -> Vec<usize> {
    let ends = ends(bytes);
    if ends.is_empty() {
        return Vec::new();
    }
    let mut cuts = match random.below(100) {
        0..=39 => vec![near(random, &ends)],
        40..=74 => vec![near(random, &ends), near(random, &ends)],
        _ => at_all(random, &ends),
    };
    cuts.retain(|cut| *cut <= bytes.len());
    cuts
}

fn near(random: &mut Random, ends: &[usize]) -> usize {
    let end = random.pick(ends);
    random.pick(&[end - 1, end, end + 1])
}

/// All shifted alike, each by some, or each cut before, at and after it.
fn at_all(random: &mut Random, ends: &[usize]) -> Vec<usize> {
    let from = random.index(ends.len().saturating_sub(MOST) + 1);
    let some = &ends[from..ends.len().min(from + MOST)];
    match random.below(6) {
        0 => some.iter().map(|end| end - 1).collect(),
        1 => some.to_vec(),
        2 => some.iter().map(|end| end + 1).collect(),
        3 | 4 => some.iter().map(|end| random.pick(&[end - 1, *end, end + 1])).collect(),
        _ => {
            let mut cuts: Vec<usize> = some.iter().flat_map(|end| [end - 1, *end, end + 1]).collect();
            cuts.sort();
            cuts.dedup();
            cuts
        }
    }
}

#[cfg(test)]
mod tests {
    use super::*;
    use crate::compare::bytes;
    use crate::compare::grow::{self, Wish};
    use crate::compare::reading;

    fn boxed(kind: &[u8; 4], body: &[u8]) -> Vec<u8> {
        [&(body.len() as u32 + 8).to_be_bytes(), &kind[..], body].concat()
    }

    fn words(words: &[u32]) -> Vec<u8> {
        words.iter().flat_map(|word| word.to_be_bytes()).collect()
    }

    /// A leaf of segment S of document 01.
    fn leaf(time: u32) -> Vec<u8> {
        let traf = [boxed(b"tfhd", &words(&[0, 1])), boxed(b"tfdt", &words(&[0, time]))].concat();
        [boxed(b"moof", &boxed(b"traf", &traf)), boxed(b"mdat", &[0; 4])].concat()
    }

    fn segment_s() -> Vec<u8> {
        let styp = boxed(b"styp", b"msdh\0\0\0\0msdh");
        let sidx = boxed(b"sidx", &words(&[0, 1, 1000, 5000, 0, 2, 60, 2000, 0x9000_0000, 60, 3000, 0x9000_0000]));
        [styp, sidx, leaf(100), leaf(2100)].concat()
    }

    #[test]
    fn the_ends_in_segment_s() {
        let styp = [4, 8, 12, 16, 20];
        let sidx = [24, 28, 29, 32, 36, 40, 44, 48, 50, 52, 56, 60, 64, 68, 72, 76];
        let leaf = [4, 8, 12, 16, 20, 24, 28, 32, 36, 40, 41, 44, 48, 52, 56, 60];
        let mut all = [&styp[..], &sidx].concat();
        all.extend([76, 136].iter().flat_map(|at| leaf.map(|end| at + end)));
        assert_eq!(ends(&segment_s()), all);
    }

    /// An index of version 1 with a 64-bit size, and a gap of 8 bytes behind it.
    #[test]
    fn wide_sizes_and_times() {
        let mut index = words(&[1]);
        index.extend(b"sidx\0\0\0\0\0\0\0\x3c");
        index.extend(words(&[1 << 24, 1, 1000, 0, 5000, 0, 8, 1, 3, 9, 0]));
        let segment = [boxed(b"free", &[]), index, boxed(b"free", &[]), vec![0; 3]].concat();
        let index = [4, 8, 16, 17, 20, 24, 28, 36, 44, 46, 48, 52, 56, 60].map(|end| 8 + end);
        assert_eq!(ends(&segment), [&[4, 8][..], &index, &[72, 76, 79]].concat());
    }

    #[test]
    fn what_is_cut_off_or_too_long_goes_on_to_the_end() {
        let segment = segment_s();
        assert_eq!(ends(&[]), []);
        for length in 1..segment.len() {
            let ends = ends(&segment[..length]);
            assert_eq!(ends.last(), Some(&length));
            assert!(ends.iter().all(|end| *end <= length) && ends.is_sorted());
        }
        assert_eq!(ends(&[255; 10]), [4, 8, 10]);
        assert_eq!(ends(&[0, 0, 0, 1, 1, 1, 1, 1, 0, 0]), [4, 8, 10]);
    }

    #[test]
    fn every_end_that_was_written_is_found() {
        let mut random = Random::new(6);
        for _ in 0..300 {
            let wish = Wish::any(&mut random);
            let written = bytes::write(&grow::segment(&mut random, wish));
            let found = ends(&written.bytes);
            let fields = written.fields.iter().map(|field| field.at + field.width);
            let missed: Vec<usize> = fields.chain(written.ends).filter(|end| found.binary_search(end).is_err()).collect();
            assert!(missed.is_empty(), "not found: {missed:?} of {:?}", written.bytes);
        }
    }

    #[test]
    fn cuts_are_at_one_two_and_all_ends() {
        let mut random = Random::new(7);
        let mut lengths = [0; 200];
        for _ in 0..2000 {
            let cuts = cuts(&mut random, &segment_s());
            let ends = ends(&segment_s());
            let by_an_end = |cut: &usize| [cut - 1, *cut, cut + 1].iter().any(|place| ends.contains(place));
            assert!(cuts.iter().all(|cut| *cut <= 196 && by_an_end(cut)));
            lengths[cuts.len()] += 1;
        }
        assert!(lengths[1] > 500 && lengths[2] > 400 && lengths[3..].iter().sum::<i32>() > 300);
        let damaged = reading::damaged_material(&mut random);
        assert!(cuts(&mut random, &damaged.written.bytes).iter().all(|cut| *cut <= damaged.written.bytes.len()));
    }
}
