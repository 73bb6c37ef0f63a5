//! The library, as include/mazurlot.h declares it, and what is lent to it.

use bench::plain::lookup::Found;
use bench::plain::{Leaf, Listing, Refusal, MOST_LEAVES};

const STATE_NUMBERS: usize = 57;
const STATE_TIMESCALE: usize = 4;
const WORK_BYTES: usize = 49_152;
const RECORD_NUMBERS: usize = 6;
const LOOKUP_NUMBERS: usize = 7;

#[link(name = "mazurlot", kind = "static")]
extern "C" {
    fn mazurlot_start(brand: u32, state: *mut u64, state_numbers: usize) -> u64;
    fn mazurlot_feed(
        piece: *const u8,
        piece_bytes: usize,
        state: *mut u64,
        state_numbers: usize,
        work: *mut u8,
        work_bytes: usize,
        table: *mut u64,
        table_numbers: usize,
        answer: *mut u64,
        answer_numbers: usize,
    ) -> u64;
    fn mazurlot_finish(state: *mut u64, state_numbers: usize, answer: *mut u64, answer_numbers: usize) -> u64;
    fn mazurlot_whole(
        brand: u32,
        segment: *const u8,
        segment_bytes: usize,
        state: *mut u64,
        state_numbers: usize,
        work: *mut u8,
        work_bytes: usize,
        table: *mut u64,
        table_numbers: usize,
        answer: *mut u64,
        answer_numbers: usize,
    ) -> u64;
    fn mazurlot_lookup_ticks(
        ticks: u64,
        state: *const u64,
        state_numbers: usize,
        table: *const u64,
        table_numbers: usize,
        answer: *mut u64,
        answer_numbers: usize,
    ) -> u64;
    fn mazurlot_lookup_seconds(
        seconds: f64,
        state: *const u64,
        state_numbers: usize,
        table: *const u64,
        table_numbers: usize,
        answer: *mut u64,
        answer_numbers: usize,
    ) -> u64;
}

/// What is lent: state, work area, leaf table and answer. The functions add nothing to the calls but the arguments, so that what is counted
/// is the calls.
pub struct Library {
    state: [u64; STATE_NUMBERS],
    work: Vec<u8>,
    table: Vec<u64>,
    answer: [u64; LOOKUP_NUMBERS],
}

impl Library {
    pub fn new() -> Library {
        let table = vec![0; RECORD_NUMBERS * MOST_LEAVES];
        Library { state: [0; STATE_NUMBERS], work: vec![0; WORK_BYTES], table, answer: [0; LOOKUP_NUMBERS] }
    }

    /// Reads a whole segment; answers the number of a refusal, or 0.
    // SAFETY, here and below: each pointer is to as much as the length after it says, and nothing that is lent overlaps.
    #[inline(always)]
    pub fn whole(&mut self, brand: u32, segment: &[u8]) -> u64 {
        let Library { state, work, table, answer } = self;
        unsafe {
            mazurlot_whole(
                brand,
                segment.as_ptr(),
                segment.len(),
                state.as_mut_ptr(),
                state.len(),
                work.as_mut_ptr(),
                work.len(),
                table.as_mut_ptr(),
                table.len(),
                answer.as_mut_ptr(),
                answer.len(),
            )
        }
    }

    #[inline(always)]
    pub fn start(&mut self, brand: u32) -> u64 {
        unsafe { mazurlot_start(brand, self.state.as_mut_ptr(), self.state.len()) }
    }

    #[inline(always)]
    pub fn feed(&mut self, piece: &[u8]) -> u64 {
        let Library { state, work, table, answer } = self;
        unsafe {
            mazurlot_feed(
                piece.as_ptr(),
                piece.len(),
                state.as_mut_ptr(),
                state.len(),
                work.as_mut_ptr(),
                work.len(),
                table.as_mut_ptr(),
                table.len(),
                answer.as_mut_ptr(),
                answer.len(),
            )
        }
    }

    #[inline(always)]
    pub fn finish(&mut self) -> u64 {
        let Library { state, answer, .. } = self;
        unsafe { mazurlot_finish(state.as_mut_ptr(), state.len(), answer.as_mut_ptr(), answer.len()) }
    }

    #[inline(always)]
    pub fn lookup_ticks(&mut self, ticks: u64) -> u64 {
        let Library { state, table, answer, .. } = self;
        let (state, table) = (&*state, &*table);
        unsafe { mazurlot_lookup_ticks(ticks, state.as_ptr(), state.len(), table.as_ptr(), table.len(), answer.as_mut_ptr(), answer.len()) }
    }

    #[inline(always)]
    pub fn lookup_seconds(&mut self, seconds: f64) -> u64 {
        let Library { state, table, answer, .. } = self;
        let (state, table) = (&*state, &*table);
        unsafe {
            mazurlot_lookup_seconds(seconds, state.as_ptr(), state.len(), table.as_ptr(), table.len(), answer.as_mut_ptr(), answer.len())
        }
    }

    /// The first number of the last answer: a count, a leaf's number, or a place.
    pub fn answered(&self) -> u64 {
        self.answer[0]
    }

    /// What a reading has come to. The timescale is no part of the answer, and is read in the state.
    pub fn listing(&self, number: u64) -> Result<Listing, Refusal> {
        match number {
            0 => Ok(Listing { leaves: self.answered() as usize, timescale: self.state[STATE_TIMESCALE] as u32 }),
            _ => Err(Refusal { number: number as u32, place: self.answered() }),
        }
    }

    /// Forgets what was listed, so that what is found in the table afterwards was written since.
    pub fn forget(&mut self) {
        self.table.fill(0);
    }

    /// The records of so many leaves.
    pub fn leaves(&self, count: usize) -> Vec<Leaf> {
        self.table.chunks_exact(RECORD_NUMBERS).take(count).map(leaf_of).collect()
    }

    /// What a lookup has found.
    pub fn found(&self, number: u64) -> Result<Found, u32> {
        match number {
            0 => Ok(Found { number: self.answered() as usize, leaf: leaf_of(&self.answer[1..]) }),
            _ => Err(number as u32),
        }
    }
}

fn leaf_of(record: &[u64]) -> Leaf {
    let &[position, size, start, duration, sap, decode] = record else { unreachable!("a record has six numbers") };
    Leaf { position, size, start, duration, sap, decode }
}
