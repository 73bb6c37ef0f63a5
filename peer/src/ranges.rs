//! The ranges of docs/STATE.md, over the state as numbers.
//!
//! A block is taken from the front of the numbers that are left, number by number; what its case does not use has to be 0.

use crate::calls::STATE_NUMBERS;
use crate::index::MOST_ENTRIES;
use crate::state::{ACCEPTED, ENDED, READING, REFUSED};
use crate::tree::LIMIT;

/// How many leaves a state lists at most.
const MOST_LEAVES: u64 = 4_096;

const BELOW_32: u64 = 0xffff_ffff;

/// Whether these numbers are a state inside the ranges: docs/STATE.md, "The state as numbers" and the ranges.
pub fn is_state(numbers: &[u64]) -> bool {
    let mut from = Numbers { left: numbers };
    numbers.len() == STATE_NUMBERS && state(&mut from).is_some() && from.are_unused()
}

/// Numbers that are taken from the front. `None` is given where one is outside its range.
struct Numbers<'a> {
    left: &'a [u64],
}

impl<'a> Numbers<'a> {
    fn any(&mut self) -> Option<u64> {
        let (first, left) = self.left.split_first()?;
        self.left = left;
        Some(*first)
    }

    fn within(&mut self, least: u64, most: u64) -> Option<u64> {
        self.any().filter(|number| (least..=most).contains(number))
    }

    fn at_most(&mut self, most: u64) -> Option<u64> {
        self.within(0, most)
    }

    /// A tag counts from 1.
    fn tag(&mut self, cases: u64) -> Option<u64> {
        self.within(1, cases)
    }

    fn flag(&mut self) -> Option<bool> {
        self.at_most(1).map(|flag| flag == 1)
    }

    /// The numbers of a block of this length, to be taken by themselves.
    fn block(&mut self, length: usize) -> Option<Numbers<'a>> {
        let (block, left) = self.left.split_at_checked(length)?;
        self.left = left;
        Some(Numbers { left: block })
    }

    fn are_unused(&self) -> bool {
        self.left.iter().all(|number| *number == 0)
    }

    fn unused(&self) -> Option<()> {
        self.are_unused().then_some(())
    }

    /// `more` and `acc` of a number of `width` bytes.
    fn number(&mut self, width: u32) -> Option<()> {
        let more = self.at_most(u64::from(width) - 1)? as u32;
        self.at_most(256u64.pow(width - 1 - more) - 1)?;
        Some(())
    }

    fn span(&mut self) -> Option<()> {
        self.any()?;
        self.any()?;
        Some(())
    }
}

fn check(holds: bool) -> Option<()> {
    holds.then_some(())
}

fn state(from: &mut Numbers) -> Option<()> {
    let tag = from.tag(4)?;
    let count = from.any()?;
    let most = if tag == REFUSED { LIMIT + 1 } else { LIMIT };
    check(count <= most)?;
    from.at_most(MOST_LEAVES)?;
    match tag {
        READING => reading(from),
        ENDED | ACCEPTED => top(from),
        _ => {
            from.within(3, 21)?;
            from.any()?;
            Some(())
        }
    }
}

fn reading(from: &mut Numbers) -> Option<()> {
    let now = from.any()?;
    from.any()?;
    match from.tag(5)? {
        1 => {
            from.any()?;
            opening_boxes(from)
        }
        2 => {
            top(from)?;
            let until = level(from)?.until;
            check(now <= until)?;
            from.any()?;
            gap_boxes(from)
        }
        3 => {
            top(from)?;
            let innermost = levels(from)?;
            check(innermost.next < innermost.count && now <= innermost.until)
        }
        4 => {
            top(from)?;
            let innermost = levels(from)?;
            slot(from, now, &innermost)?;
            leaf_boxes(from)
        }
        _ => {
            top(from)?;
            let innermost = levels(from)?;
            slot(from, now, &innermost)?;
            inner_box(from, innermost.number)
        }
    }
}

/// `Top`: `start` and `durations` sum to less than 2^64.
fn top(from: &mut Numbers) -> Option<()> {
    from.at_most(BELOW_32)?;
    from.within(1, BELOW_32)?;
    from.any()?.checked_add(from.any()?)?;
    Some(())
}

struct Level {
    /// Counted from 1, the top index first.
    number: u64,
    next: u64,
    count: u64,
    until: u64,
}

fn level(from: &mut Numbers) -> Option<Level> {
    let (next, count) = (from.any()?, from.at_most(MOST_ENTRIES)?);
    check(next <= count)?;
    from.any()?;
    Some(Level { number: 1, next, count, until: from.any()? })
}

/// `Levels`; the innermost is given. The `until` of an inner index is at most that of the index around it.
fn levels(from: &mut Numbers) -> Option<Level> {
    let mut block = from.block(17)?;
    let open = block.tag(4)?;
    let mut innermost = level(&mut block)?;
    for number in 2..=open {
        let inner = level(&mut block)?;
        check(inner.until <= innermost.until)?;
        innermost = Level { number, ..inner };
    }
    block.unused()?;
    Some(innermost)
}

fn slot(from: &mut Numbers, now: u64, innermost: &Level) -> Option<()> {
    let (pos, end, until) = (from.any()?, from.any()?, from.any()?);
    from.any()?;
    check(pos <= end && now <= until && until <= innermost.until)
}

fn head(from: &mut Numbers) -> Option<()> {
    let tag = from.tag(4)?;
    if tag == 1 {
        return Some(());
    }
    from.at_most(LIMIT)?;
    if tag > 2 {
        from.any()?;
    }
    from.number(if tag == 4 { 8 } else { 4 })
}

fn opening_boxes(from: &mut Numbers) -> Option<()> {
    let tag = from.tag(2)?;
    from.flag()?;
    if tag == 1 {
        return head(from);
    }
    match from.tag(3)? {
        1 => from.any().map(|_| ()),
        2 => {
            from.span()?;
            from.tag(3)?;
            from.flag()?;
            from.number(4)
        }
        _ => {
            from.span()?;
            sidx(from)
        }
    }
}

fn gap_boxes(from: &mut Numbers) -> Option<()> {
    match from.tag(2)? {
        1 => head(from),
        _ => from.any().map(|_| ()),
    }
}

/// `InnerBox`; `open` indexes stand open around it.
fn inner_box(from: &mut Numbers, open: u64) -> Option<()> {
    match from.tag(2)? {
        1 => head(from),
        _ => {
            check(open <= 3)?;
            from.span()?;
            sidx(from)
        }
    }
}

fn sidx(from: &mut Numbers) -> Option<()> {
    match from.tag(2)? {
        1 => {
            let part = from.tag(8)?;
            let wide = draft(from, part > 4)?;
            let time = if wide { 8 } else { 4 };
            from.number([1, 3, 4, 4, time, time, 2, 2][part as usize - 1])
        }
        _ => {
            let part = from.tag(3)?;
            draft(from, true)?;
            sums(from, part)?;
            from.number(4)
        }
    }
}

/// `Draft`; the flag `wide` is given. A timescale that was read is not 0.
fn draft(from: &mut Numbers, scale_read: bool) -> Option<bool> {
    let wide = from.flag()?;
    from.at_most(BELOW_32)?;
    from.within(u64::from(scale_read), BELOW_32)?;
    from.any()?;
    from.any()?;
    Some(wide)
}

/// `Sums` at the size, the duration or the SAP word (1 to 3) of the entry `next`.
fn sums(from: &mut Numbers, part: u64) -> Option<()> {
    let (next, count) = (from.any()?, from.at_most(MOST_ENTRIES)?);
    check(next < count)?;
    let sizes_read = next + u64::from(part > 1);
    let durations_read = next + u64::from(part > 2);
    from.at_most(sizes_read << 31)?;
    from.at_most(durations_read << 32)?;
    Some(())
}

fn seen(from: &mut Numbers) -> Option<()> {
    from.flag()?;
    from.span()
}

fn leaf_boxes(from: &mut Numbers) -> Option<()> {
    let tag = from.tag(2)?;
    from.flag()?;
    seen(from)?;
    if tag == 1 {
        return head(from);
    }
    let body = from.tag(2)?;
    from.any()?;
    if body == 2 {
        moof_boxes(from)?;
    }
    Some(())
}

fn moof_boxes(from: &mut Numbers) -> Option<()> {
    let tag = from.tag(2)?;
    seen(from)?;
    if tag == 1 {
        return head(from);
    }
    match from.tag(2)? {
        1 => from.any().map(|_| ()),
        _ => {
            from.span()?;
            traf_boxes(from)
        }
    }
}

fn traf_boxes(from: &mut Numbers) -> Option<()> {
    let tag = from.tag(2)?;
    traf_phase(from)?;
    seen(from)?;
    if tag == 1 {
        return head(from);
    }
    match from.tag(3)? {
        1 => from.any().map(|_| ()),
        2 => {
            from.any()?;
            from.flag().map(|_| ())
        }
        _ => {
            let width = traf_part(from)?;
            from.number(width)
        }
    }
}

fn traf_phase(from: &mut Numbers) -> Option<()> {
    let mut block = from.block(2)?;
    if block.tag(3)? == 2 {
        block.flag()?;
    }
    block.unused()
}

/// `TrafPart`; how many bytes the part has is given.
fn traf_part(from: &mut Numbers) -> Option<u32> {
    let mut block = from.block(3)?;
    let part = block.tag(5)?;
    block.any()?;
    match part {
        3 => block.any().map(|_| ())?,
        4 => block.flag().map(|_| ())?,
        _ => block.unused()?,
    }
    Some([4, 4, 1, 3, 8][part as usize - 1])
}
