//! What a sequence of calls is made of: what is lent, parts, lookups, and calls at the wrong time.

use super::altered;
use super::by_hand;
use super::bytes::Written;
use super::long;
use super::random::Random;
use super::reading;
use super::seconds;
use super::sequence::Sequence;
use super::shrink::is_of_the_form;
use crate::calls::{Call, STATE_NUMBERS};
use crate::time::Request;

/// The least that a work area has.
pub const WORK: usize = 49_152;
/// The sequence of this number goes past byte 268,435,456; it is made once in a run that comes so far.
pub const LONG_READING: u64 = 300;

/// The sequence of that number in the run of that seed.
pub fn sequence(seed: u64, number: u64) -> Sequence {
    let mut random = Random::of_sequence(seed, number);
    if number == LONG_READING {
        return long::past_the_limit(&mut random);
    }
    let mut session = Session::new(&mut random);
    session.fill();
    if !is_of_the_form(&session.calls) {
        session.doubt = Some("a command of this sequence is not of the form of docs/BATCH.md: it is wrongly made".to_string());
    }
    Sequence { lead: session.calls, doubt: session.doubt, ..Sequence::default() }
}

/// A sequence that is being made.
pub struct Session<'a> {
    pub random: &'a mut Random,
    pub calls: Vec<Call>,
    /// How many bytes the work area has that is lent.
    pub work: usize,
    /// How many numbers the leaf table has that is lent.
    pub table: usize,
    /// How many calls feed parts that are cut by the ends of headers, fields and boxes.
    pub at_places: usize,
    pub doubt: Option<String>,
}

impl<'a> Session<'a> {
    pub fn new(random: &'a mut Random) -> Session<'a> {
        Session { random, calls: Vec::new(), work: 0, table: 0, at_places: 0, doubt: None }
    }

    fn fill(&mut self) {
        match self.random.below(1000) {
            0..=199 => reading::right(self),
            200..=579 => reading::damaged(self),
            580..=609 => reading::random(self),
            610..=709 => altered::entries(self),
            710..=749 => altered::tables(self),
            750..=779 => altered::leaf_ends(self),
            780..=894 => by_hand::states(self),
            895..=939 => by_hand::edges(self),
            940..=959 => by_hand::states_of_a_reading(self),
            960..=997 => by_hand::lookups(self),
            _ => reading::large(self),
        }
    }

    /// Lends a state, a work area and a leaf table for about so many leaves.
    pub fn lend(&mut self, leaves: usize) {
        self.lend_junk_state();
        self.lend_any_work();
        self.lend_any_table(leaves);
    }

    /// A state that a start or the whole reader writes over, mostly; one of another length they do not.
    fn lend_junk_state(&mut self) {
        let mut numbers = vec![0; STATE_NUMBERS];
        match self.random.below(100) {
            0..=1 => numbers.resize(self.random.pick(&[0, 1, 56, 58, 64]), 0),
            2..=20 => numbers.iter_mut().for_each(|number| *number = self.random.number()),
            _ => (),
        }
        self.calls.push(Call::LendState(numbers));
    }

    pub fn lend_any_work(&mut self) {
        let bytes = self.random.weighted(&[(90, WORK), (3, WORK + 1), (2, 65_536), (2, WORK - 1), (1, 0)]);
        self.lend_work(bytes);
    }

    pub fn lend_work(&mut self, bytes: usize) {
        let any = self.random.byte();
        let each = self.random.pick(&[0, 0, 1, 255, any]);
        self.work = bytes;
        self.calls.push(Call::LendWork { bytes, each });
    }

    pub fn lend_any_table(&mut self, leaves: usize) {
        let enough = 6 * leaves;
        let more = self.random.index(12);
        let fewer = self.random.index(enough + 1);
        let small = self.random.index(61);
        let numbers = self.random.weighted(&[(55, enough + more), (15, enough), (12, fewer), (10, small), (5, enough + 60)]);
        self.lend_table(numbers.min(32_768));
    }

    pub fn lend_table(&mut self, numbers: usize) {
        let any = self.random.number();
        let each = self.random.pick(&[0, 0, u64::MAX, any]);
        self.table = numbers;
        self.calls.push(Call::LendTable { numbers, each });
    }

    /// The same lent again, as these calls did it.
    pub fn lend_again(&mut self, lent: &[Call]) {
        for call in lent {
            match call {
                Call::LendWork { bytes, .. } => self.work = *bytes,
                Call::LendTable { numbers, .. } => self.table = *numbers,
                _ => (),
            }
            self.calls.push(call.clone());
        }
    }

    /// Writes into the work area as much as lies inside it.
    pub fn write_work(&mut self, at: usize, mut bytes: Vec<u8>) {
        bytes.truncate(self.work.saturating_sub(at));
        if !bytes.is_empty() {
            self.calls.push(Call::WriteWork { at, bytes });
        }
    }

    /// Writes into the leaf table as much as lies inside it.
    pub fn write_table(&mut self, at: usize, mut numbers: Vec<u64>) {
        numbers.truncate(self.table.saturating_sub(at));
        if !numbers.is_empty() {
            self.calls.push(Call::WriteTable { at, numbers });
        }
    }

    pub fn feed(&mut self, part: &[u8]) {
        self.calls.push(Call::Feed(part.to_vec()));
    }

    /// Feeds the bytes cut at these places, in order; a place that comes twice makes an empty part.
    pub fn feed_cut(&mut self, bytes: &[u8], mut cuts: Vec<usize>) {
        cuts.sort();
        let mut from = 0;
        for cut in cuts {
            let cut = cut.min(bytes.len());
            self.feed(&bytes[from..cut]);
            if self.random.chance(2) {
                self.disturb();
            }
            from = cut;
        }
        self.feed(&bytes[from..]);
    }

    /// A call or a change of what is lent that may come between any two parts.
    pub fn disturb(&mut self) {
        match self.random.below(9) {
            0 | 1 => self.feed(&[]),
            2 => {
                let ticks = self.random.number();
                self.calls.push(Call::Lookup(Request::Ticks(ticks)));
            }
            3 if self.work > 0 => {
                let (at, count) = (self.random.index(self.work), self.random.count(1..=24));
                let bytes = self.random.bytes(count);
                self.write_work(at, bytes);
            }
            4 if self.table > 0 => {
                let (at, count) = (self.random.index(self.table), self.random.count(1..=7));
                let numbers = (0..count).map(|_| self.random.number()).collect();
                self.write_table(at, numbers);
            }
            5 => {
                let leaves = self.table / 6;
                self.lend_any_table(leaves);
            }
            6 => self.short_work_for_a_call(),
            7 => self.any_seconds(),
            _ => self.calls.push(Call::Finish),
        }
    }

    /// A feed with a short work area, and then one that is long enough, but without the entries.
    fn short_work_for_a_call(&mut self) {
        let bytes = self.random.pick(&[0, 1, 48_000, WORK - 1]);
        self.lend_work(bytes);
        let count = self.random.index(2);
        let part = self.random.bytes(count);
        self.feed(&part);
        self.lend_work(WORK);
    }

    /// A lookup by seconds, or a mark, whatever the leaves are.
    pub fn any_seconds(&mut self) {
        let scale = u64::from(seconds::scale(self.random));
        let call = seconds::call(self.random, scale, &[(0, 1000), (5000, 2000)]);
        self.calls.push(call);
    }

    /// So many lookups by ticks and as many by seconds.
    pub fn lookups(&mut self, written: &Written, count: usize) {
        self.lookups_by_ticks(written, count);
        let leaves: Vec<(u64, u64)> = written.leaves.iter().map(|leaf| (leaf.start, u64::from(leaf.duration))).collect();
        for _ in 0..count {
            let call = seconds::call(self.random, u64::from(written.scale.max(1)), &leaves);
            self.calls.push(call);
        }
    }

    /// Lookups at the edges of the leaves, at both ends of time, and anywhere.
    fn lookups_by_ticks(&mut self, written: &Written, count: usize) {
        for _ in 0..count {
            let any = self.random.number();
            let mut times = vec![0, u64::MAX, any];
            if !written.leaves.is_empty() {
                let leaf = &written.leaves[self.random.index(written.leaves.len())];
                let end = leaf.start.wrapping_add(u64::from(leaf.duration));
                let within = leaf.start.wrapping_add(self.random.within(0..=u64::from(leaf.duration)));
                let edges = [leaf.start.wrapping_sub(1), leaf.start, leaf.start.wrapping_add(1), end.wrapping_sub(1), end, within];
                times.extend(edges.iter().chain(&edges));
            }
            let ticks = self.random.pick(&times);
            self.calls.push(Call::Lookup(Request::Ticks(ticks)));
        }
    }
}

#[cfg(test)]
mod tests {
    use super::*;
    use crate::calls::{Answer, Source};
    use crate::compare::stand_in::StandIn;

    #[test]
    fn sequences_are_of_the_form_and_hang_on_their_seed() {
        for number in (0..20_000).filter(|number| *number != LONG_READING) {
            let one = sequence(9, number);
            assert!(is_of_the_form(&one.lead), "sequence {number}");
            assert!(one.doubt.is_none() && one.answers() > 0, "sequence {number}");
            if number < 500 {
                assert_eq!(one.lead, sequence(9, number).lead);
            }
        }
    }

    #[test]
    fn a_fair_share_of_the_calls_is_cut_by_ends() {
        let (mut at_places, mut calls) = (0, 0);
        for number in 0..5000 {
            let mut random = Random::of_sequence(11, number);
            let mut session = Session::new(&mut random);
            session.fill();
            at_places += session.at_places;
            calls += session.calls.iter().filter(|call| call.is_answered()).count();
        }
        let share = 100 * at_places / calls;
        assert!((20..=40).contains(&share), "{share} of 100 calls");
    }

    #[test]
    fn the_long_reading_is_just_too_long() {
        let long = sequence(9, LONG_READING);
        assert!(long.bytes() > 268_435_456 && long.bytes() < 268_435_456 + 100);
        assert!(long.calls().all(|call| is_of_the_form(std::slice::from_ref(call))));
    }

    #[test]
    fn calls_and_answers_are_read_as_they_were_written() {
        let mut peer = StandIn::default();
        for call in (0..200).flat_map(|number| sequence(10, number).lead) {
            let mut bytes = Vec::new();
            call.write(&mut bytes);
            assert_eq!(Call::read(&mut Source::new(&bytes)).as_ref(), Some(&call));
            if let Some(answer) = peer.answer(&call) {
                bytes.clear();
                answer.write(&mut bytes);
                assert_eq!(Answer::read(&mut Source::new(&bytes)), Some(answer));
            }
        }
    }
}
