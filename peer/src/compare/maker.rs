//! Makes states by hand, from the tables of docs/STATE.md alone: in every stage and case, inside the ranges.

use super::random::Random;
use super::seconds;
use super::states::{spelled_below, Made, Rule, Width, LIMIT};
use crate::calls::STATE_NUMBERS;

/// The place of the tag that says how many indexes are open.
const LEVELS_TAG: usize = 10;

/// Makes states number by number, from the front.
struct Maker<'a> {
    random: &'a mut Random,
    made: Made,
    at: usize,
    /// How many bytes are read, and where boxes of what will be fed end behind them: ends near these are worth most.
    count: u64,
    ends: &'a [usize],
}

/// A state inside the ranges, before bytes whose boxes end at `ends`.
pub fn make(random: &mut Random, ends: &[usize]) -> Made {
    let mut maker = Maker { random, made: Made::empty(), at: 0, count: 0, ends };
    maker.state();
    maker.made
}

/// A state of an accepted finish with so many leaves.
pub fn accepted(random: &mut Random, leaves: u64) -> Vec<u64> {
    let mut numbers = vec![0; STATE_NUMBERS];
    let (count, id, scale) = (random.below(LIMIT + 1), u64::from(random.word()), u64::from(seconds::scale(random)));
    numbers[..7].copy_from_slice(&[4, count, leaves, id, scale, 0, random.number()]);
    numbers
}

impl Maker<'_> {
    fn put(&mut self, number: u64) -> usize {
        let at = self.at;
        self.made.numbers[at] = number;
        self.made.used[at] = true;
        self.at += 1;
        at
    }

    fn at_most(&mut self, number: u64, most: u64) -> usize {
        let at = self.put(number.min(most));
        self.made.rules.push(Rule::AtMost { at, most });
        at
    }

    /// A tag of as many as there are.
    fn tag(&mut self, tag: u64, tags: u64) {
        let at = self.put(tag);
        self.made.tags.push((at, tags));
    }

    fn any_tag(&mut self, tags: u64) -> u64 {
        let tag = self.random.within(1..=tags);
        self.tag(tag, tags);
        tag
    }

    fn flag(&mut self) {
        let flag = self.random.below(2);
        let at = self.put(flag);
        self.made.flags.push(at);
    }

    fn any(&mut self) -> usize {
        let number = self.random.number();
        self.put(number)
    }

    /// A place near the byte that comes next: mostly the end of a box of what will be fed.
    fn near(&mut self) -> u64 {
        let by = self.random.below(24);
        let end = if self.ends.is_empty() { 8 } else { self.random.pick(self.ends) as u64 };
        match self.random.below(12) {
            0 => self.count,
            1 => self.count + 1,
            2 => self.count.saturating_sub(by),
            3 | 4 => self.count + by,
            5 => self.random.number(),
            6 => LIMIT - self.random.below(2),
            _ => self.count + end,
        }
    }

    fn place(&mut self) -> usize {
        let place = self.near();
        self.put(place)
    }

    /// Where a box started: before the byte that comes next, mostly by no more than a header.
    fn begun(&mut self) -> u64 {
        let by = self.random.below(17);
        if self.random.chance(90) {
            self.count.saturating_sub(by)
        } else {
            self.random.number()
        }
    }

    /// `more` and `acc` of a number of so many bytes.
    fn spelled(&mut self, width: u64) {
        self.spelled_in(Width::Bytes(width));
    }

    fn spelled_in(&mut self, in_bytes: Width) {
        let width = in_bytes.bytes(&self.made.numbers);
        let left = self.random.below(width);
        let more = self.put(left);
        let below = spelled_below(width, left);
        let spelled = self.random.pick(&[0, 0, 1, below - 1]).min(below - 1);
        let acc = self.put(spelled);
        self.made.rules.push(Rule::Spelled { more, acc, width: in_bytes });
    }

    fn state(&mut self) {
        let tag = self.random.weighted(&[(80, 1), (5, 2), (6, 3), (9, 4)]);
        self.tag(tag, 4);
        let edge = LIMIT - self.random.below(40);
        let any = self.random.below(LIMIT + 1);
        let small = self.random.below(1000);
        self.count = self.random.pick(&[0, small, small, small, small, small, edge, LIMIT, any]);
        self.at_most(self.count, if tag == 3 { LIMIT + 1 } else { LIMIT });
        let leaves = self.random.weighted(&[(40, 0), (30, 1), (20, 2), (3, 4095), (2, 4096)]);
        self.at_most(leaves, 4096);
        match tag {
            1 => self.reading(),
            3 => {
                let number = self.random.within(3..=21);
                let at = self.at_most(number, 21);
                self.made.rules.push(Rule::AtLeast { at, least: 3 });
                self.any();
            }
            _ => self.top(),
        }
    }

    fn top(&mut self) {
        let (id, scale) = (self.random.word(), seconds::scale(self.random));
        let id = self.random.pick(&[0, 1, 1, u64::from(id)]);
        self.at_most(id, u64::from(u32::MAX));
        let at = self.at_most(u64::from(scale), u64::from(u32::MAX));
        self.made.rules.push(Rule::AtLeast { at, least: 1 });
        let start = self.any();
        let most = u64::MAX - self.made.numbers[start];
        let durations = self.random.number().min(most);
        let other = self.put(durations);
        self.made.rules.push(Rule::SumFits { at: start, other });
    }

    /// What a reading holds before its stage, and the stage. Numbers that hang together start low and rise.
    fn reading(&mut self) {
        let now = self.any();
        self.any();
        let stage = self.random.weighted(&[(20, 1), (8, 2), (14, 3), (38, 4), (20, 5)]);
        self.tag(stage, 5);
        match stage {
            1 => {
                let word = u64::from(self.random.word());
                let brand = self.random.pick(&[word, u64::from(u32::from_be_bytes(*b"msdh")), 0, u64::MAX]);
                self.put(brand);
                self.opening_boxes();
            }
            2 => {
                self.top();
                let until = self.level(self.made.numbers[now]);
                self.made.rules.push(Rule::NotAbove { at: now, other: until });
                self.place();
                self.gap_boxes();
            }
            _ => self.in_entries(now, stage),
        }
    }

    fn in_entries(&mut self, now: usize, stage: u64) {
        self.top();
        let inner_body = stage == 5 && self.random.chance(60);
        let until = self.levels(now, if inner_body { 3 } else { 4 });
        if stage == 3 {
            let next = *self.made.levels.last().expect("one level at least");
            let count = self.made.numbers[next + 1].max(1);
            self.made.numbers[next + 1] = count;
            self.made.numbers[next] = self.made.numbers[next].min(count - 1);
            self.made.rules.push(Rule::Below { at: next, other: next + 1 });
            self.made.rules.push(Rule::NotAbove { at: now, other: until });
            return;
        }
        self.slot(now, until);
        match (stage, inner_body) {
            (4, _) => self.leaf_boxes(),
            (_, true) => {
                self.tag(2, 2);
                self.place();
                self.place();
                self.sidx();
                self.made.rules.push(Rule::ThreeOpen { at: LEVELS_TAG });
            }
            (_, false) => {
                self.tag(1, 2);
                self.head();
            }
        }
    }

    /// A number that is `from` or more, mostly by little.
    fn rising(&mut self, from: u64) -> u64 {
        let by = self.random.number();
        from.saturating_add(self.random.pick(&[0, 0, 1, 1000, by]))
    }

    /// An index; its `until` is `least` or more. Gives the place of `until`.
    fn level(&mut self, least: u64) -> usize {
        self.made.levels.push(self.at);
        let count = self.random.weighted(&[(40, 1), (30, 2), (10, 3), (5, 1024), (5, 1023), (3, 0)]);
        let next = self.random.within(0..=count);
        let next = self.random.pick(&[next, count, count.saturating_sub(1)]);
        let next = self.put(next);
        let count = self.at_most(count, 1024);
        self.made.rules.push(Rule::NotAbove { at: next, other: count });
        self.place();
        let until = self.rising(least);
        self.put(until)
    }

    /// One to `most` indexes; gives the place of the innermost `until`, which is not before `now`.
    fn levels(&mut self, now: usize, most: u64) -> usize {
        let start = self.at;
        let open = self.random.within(1..=most);
        self.tag(open, 4);
        for _ in 0..open {
            self.level(self.made.numbers[now]);
        }
        let untils: Vec<usize> = self.made.levels.iter().map(|level| level + 3).collect();
        let mut sorted: Vec<u64> = untils.iter().map(|at| self.made.numbers[*at]).collect();
        sorted.sort();
        for (at, number) in untils.iter().rev().zip(sorted) {
            self.made.numbers[*at] = number;
        }
        for pair in untils.windows(2) {
            self.made.rules.push(Rule::NotAbove { at: pair[1], other: pair[0] });
        }
        self.at = start + 17;
        untils[untils.len() - 1]
    }

    fn slot(&mut self, now: usize, innermost: usize) {
        let end = self.near();
        let begun = self.begun();
        let pos = self.put(begun.min(end));
        let end = self.put(end);
        self.made.rules.push(Rule::NotAbove { at: pos, other: end });
        let (low, high) = (self.made.numbers[now], self.made.numbers[innermost]);
        let between = self.random.within(low..=high);
        let until = self.random.pick(&[low, high, between]);
        let until = self.put(until);
        self.made.rules.push(Rule::NotAbove { at: now, other: until });
        self.made.rules.push(Rule::NotAbove { at: until, other: innermost });
        self.any();
    }

    fn head(&mut self) {
        let case = self.random.weighted(&[(50, 1), (15, 2), (20, 3), (15, 4)]);
        self.tag(case, 4);
        if case == 1 {
            return;
        }
        let pos = self.begun();
        self.at_most(pos, LIMIT);
        match case {
            2 => self.spelled(4),
            3 => {
                let size = self.random.number();
                let size = self.random.pick(&[0, 1, 7, 8, 9, 16, 40, size]);
                self.put(size);
                self.spelled(4);
            }
            _ => {
                let kind = super::grow::other_kind(self.random);
                let any = self.random.number();
                let kind = self.random.pick(&[u64::from(u32::from_be_bytes(kind)), u64::from(u32::from_be_bytes(kind)), any]);
                self.put(kind);
                self.spelled(8);
            }
        }
    }

    /// The tag of a list of boxes, 1 for a header and 2 for a body, and whether it is a header.
    fn in_header(&mut self) -> bool {
        !self.deeper()
    }

    /// A tag of two, and whether it is the second: mostly that one, since most cases lie behind it.
    fn deeper(&mut self) -> bool {
        let tag = self.random.weighted(&[(30, 1), (70, 2)]);
        self.tag(tag, 2);
        tag == 2
    }

    fn opening_boxes(&mut self) {
        let in_header = self.in_header();
        self.flag();
        if in_header {
            return self.head();
        }
        match self.any_tag(3) {
            1 => {
                self.place();
            }
            2 => {
                self.place();
                self.place();
                self.any_tag(3);
                self.flag();
                self.spelled(4);
            }
            _ => {
                self.place();
                self.place();
                self.sidx();
            }
        }
    }

    fn gap_boxes(&mut self) {
        if self.in_header() {
            self.head();
        } else {
            self.place();
        }
    }

    /// What is read of an index before its entries. Gives the place of the flag `wide`.
    fn draft(&mut self, scale_read: bool) -> usize {
        let wide = self.at;
        self.flag();
        let id = u64::from(self.random.word());
        let id = self.random.pick(&[0, 1, id]);
        self.at_most(id, u64::from(u32::MAX));
        let scale = u64::from(self.random.word()).max(1);
        let scale = self.random.pick(&[u64::from(scale_read), 1000, scale]);
        let at = self.at_most(scale, u64::from(u32::MAX));
        if scale_read {
            self.made.rules.push(Rule::AtLeast { at, least: 1 });
        }
        self.any();
        let offset = self.random.number();
        let offset = self.random.pick(&[0, 0, 8, offset]);
        self.put(offset);
        wide
    }

    fn sidx(&mut self) {
        if self.any_tag(2) == 1 {
            let part = self.any_tag(8);
            let wide = self.draft(part > 4);
            return match part {
                1 => self.spelled(1),
                2 => self.spelled(3),
                3 | 4 => self.spelled(4),
                5 | 6 => self.spelled_in(Width::ByFlag(wide)),
                _ => self.spelled(2),
            };
        }
        let part = self.any_tag(3);
        self.draft(true);
        let count = self.random.weighted(&[(40, 1), (30, 2), (10, 3), (10, 1024)]);
        let next = self.random.below(count);
        let next = self.random.pick(&[next, count - 1]);
        let at = self.put(next);
        let of = self.at_most(count, 1024);
        self.made.rules.push(Rule::Below { at, other: of });
        self.sum(at, u64::from(part > 1), 1 << 31);
        self.sum(at, u64::from(part > 2), 1 << 32);
        self.spelled(4);
    }

    /// A sum of the entries read so far.
    fn sum(&mut self, next: usize, beyond: u64, each: u64) {
        let most = (self.made.numbers[next] + beyond) * each;
        let any = self.random.within(0..=most);
        let small = self.random.below(200).min(most);
        let sum = self.random.pick(&[0, small, small, most, any]);
        let at = self.put(sum);
        self.made.rules.push(Rule::Sum { at, next, beyond, each });
    }

    fn seen(&mut self) {
        self.flag();
        self.any();
        self.any();
    }

    fn leaf_boxes(&mut self) {
        let in_header = self.in_header();
        self.flag();
        self.seen();
        if in_header {
            return self.head();
        }
        let in_moof = self.deeper();
        self.place();
        if in_moof {
            self.moof_boxes();
        }
    }

    fn moof_boxes(&mut self) {
        let in_header = self.in_header();
        self.seen();
        if in_header {
            return self.head();
        }
        let in_traf = self.deeper();
        self.place();
        if in_traf {
            self.place();
            self.traf_boxes();
        }
    }

    fn traf_boxes(&mut self) {
        let in_header = self.in_header();
        let start = self.at;
        if self.any_tag(3) == 2 {
            self.flag();
        }
        self.at = start + 2;
        self.seen();
        if in_header {
            return self.head();
        }
        let body = self.random.weighted(&[(20, 1), (20, 2), (60, 3)]);
        self.tag(body, 3);
        match body {
            1 => {
                self.place();
            }
            2 => {
                self.place();
                self.flag();
            }
            _ => self.traf_field(),
        }
    }

    fn traf_field(&mut self) {
        let start = self.at;
        let part = self.any_tag(5);
        self.place();
        match part {
            3 => {
                self.place();
            }
            4 => {
                self.flag();
            }
            _ => (),
        }
        self.at = start + 3;
        self.spelled([4, 4, 1, 3, 8][part as usize - 1]);
    }
}

#[cfg(test)]
mod tests {
    use super::*;
    use crate::compare::states::Meant;
    use crate::ranges;

    fn assert_meant(meant: &Meant) {
        if let Some(is_state) = meant.is_state {
            assert_eq!(ranges::is_state(&meant.numbers), is_state, "{:?}", meant.numbers);
        }
    }

    #[test]
    fn the_ranges_agree_with_what_was_meant() {
        let mut random = Random::new(6);
        let ends = [8, 16, 40];
        for _ in 0..60_000 {
            let made = make(&mut random, &ends);
            assert!(made.is_state(), "{:?}", made.numbers);
            assert_meant(&made.whole());
            assert_meant(&made.clone().at_edge(&mut random));
            assert_meant(&made.broken(&mut random));
        }
    }

    #[test]
    fn edges_are_on_both_sides() {
        let mut random = Random::new(7);
        let kept = (0..2000).filter(|_| make(&mut random, &[8]).at_edge(&mut random).is_state == Some(true)).count();
        assert!((400..1600).contains(&kept), "{kept}");
    }

    #[test]
    fn a_state_of_an_accepted_finish_is_one() {
        let mut random = Random::new(8);
        assert!((0..100).all(|_| ranges::is_state(&accepted(&mut random, 4096))));
    }
}
