//! What is lent: the work area and the leaf table.

use crate::calls::Run;
use crate::fed::Fed;
use crate::index::{Index, ENTRY};
use std::borrow::Cow;

/// The least length of a work area (row 1).
pub const WORK: usize = 49_152;

/// The length of a level's part of it (R15).
const PART: u64 = 12_288;

/// No table has room for more leaves.
const MOST_ROOM: usize = 4_096;

/// The numbers of a record.
pub const RECORD: usize = 6;

/// How many leaves a table of so many numbers has room for.
pub fn room(numbers: usize) -> u64 {
    (numbers / RECORD).min(MOST_ROOM) as u64
}

/// Where the entry byte of this number, counted from 0 within the index, goes in the work area (R15).
pub fn entry_place(level: u64, at: u64) -> usize {
    (PART * (level - 1) + at) as usize
}

/// An entry byte: where it stands in the segment, and where it goes in the work area.
#[derive(Clone, Copy, Debug)]
pub struct Store {
    pub at: u64,
    pub place: usize,
    pub byte: u8,
}

/// The work area during a call: what was lent, and the entry bytes that have come since.
pub struct Area<'a> {
    bytes: Cow<'a, [u8]>,
    pub stores: Vec<Store>,
}

impl<'a> Area<'a> {
    pub fn new(lent: &'a [u8]) -> Area<'a> {
        Area { bytes: Cow::Borrowed(lent), stores: Vec::new() }
    }

    /// Each entry byte of this index that came at or after `since` goes to its place in the level's part.
    pub fn store(&mut self, index: &Index, level: u64, fed: &Fed, since: u64) {
        let Some(entries) = index.entries() else {
            return;
        };
        let (from, to) = (since.max(entries), fed.count().min(index.end));
        let Some(came) = fed.slice(from, to.max(from)) else {
            return;
        };
        for (at, byte) in (from..).zip(came) {
            self.put(Store { at, place: entry_place(level, at - entries), byte: *byte });
        }
    }

    fn put(&mut self, store: Store) {
        if let Some(place) = self.bytes.to_mut().get_mut(store.place) {
            *place = store.byte;
            self.stores.push(store);
        }
    }

    /// The twelve bytes of the entry of this number, counted from 0, as they stand now.
    pub fn entry(&self, level: u64, number: usize) -> [u8; ENTRY as usize] {
        let first = entry_place(level, ENTRY * number as u64);
        std::array::from_fn(|k| self.bytes.get(first + k).copied().unwrap_or(0))
    }
}

/// The record of a leaf, to be written for the leaf of this number, counted from 1.
#[derive(Clone, Copy, Debug, PartialEq, Eq)]
pub struct Record {
    pub number: u64,
    pub numbers: [u64; RECORD],
}

/// What stands where the stored bytes went.
pub fn work_runs(work: &[u8], stores: &[Store]) -> Vec<Run<u8>> {
    let (Some(from), Some(last)) = (stores.iter().map(|s| s.place).min(), stores.iter().map(|s| s.place).max()) else {
        return Vec::new();
    };
    let Some(before) = work.get(from..=last) else {
        return Vec::new();
    };
    let mut after = before.to_vec();
    for store in stores {
        after[store.place - from] = store.byte;
    }
    runs(before, &after, from)
}

/// What stands where the records went.
pub fn table_runs(table: &[u64], records: &[Record]) -> Vec<Run<u64>> {
    let Some(first) = records.first() else {
        return Vec::new();
    };
    let from = (first.number as usize - 1) * RECORD;
    let after: Vec<u64> = records.iter().flat_map(|record| record.numbers).collect();
    table.get(from..from + after.len()).map_or(Vec::new(), |before| runs(before, &after, from))
}

/// The runs, as long as they can be, in which `after` is not as `before`; `from` is the place of both.
pub fn runs<T: Copy + PartialEq>(before: &[T], after: &[T], from: usize) -> Vec<Run<T>> {
    let mut runs: Vec<Run<T>> = Vec::new();
    for (at, (_, now)) in before.iter().zip(after).enumerate().filter(|(_, (was, now))| was != now) {
        match runs.last_mut() {
            Some(run) if run.at + run.now.len() == from + at => run.now.push(*now),
            _ => runs.push(Run { at: from + at, now: vec![*now] }),
        }
    }
    runs
}

/// Writes the runs over what stands there. Those that lie outside are left away.
pub fn write_runs<T: Copy>(lent: &mut [T], runs: &[Run<T>]) {
    for run in runs {
        write(lent, run.at, &run.now);
    }
}

/// Writes these at `at`, if they lie inside.
pub fn write<T: Copy>(lent: &mut [T], at: usize, now: &[T]) {
    let place = at.checked_add(now.len()).and_then(|end| lent.get_mut(at..end));
    if let Some(place) = place {
        place.copy_from_slice(now);
    }
}
