//! The calls of include/mazurlot.h, each made from slices.
//!
//! What the header asks of its caller holds in each of them for the same reasons:
//!
//! - Lent as much as is said: a pointer and its length are those of one slice or array.
//! - Never null, and aligned: those of a slice are, an empty one's too.
//! - No overlap: what is written is borrowed exclusively (`&mut`), so no other slice of the call shares a byte with it.
//!
//! That state, work area and table belong together is not needed for safety.

use crate::STATE_NUMBERS;

type Numbers = [u64; STATE_NUMBERS];

extern "C" {
    fn mazurlot_start(brand: u32, state: *mut u64, state_numbers: usize) -> u64;
    fn mazurlot_feed(
        piece: *const u8,
        piece_bytes: usize,
        state: *mut u64,
        state_numbers: usize,
        work: *mut u8,
        work_bytes: usize,
        table: *mut u64,
        table_numbers: usize,
        answer: *mut u64,
        answer_numbers: usize,
    ) -> u64;
    fn mazurlot_finish(state: *mut u64, state_numbers: usize, answer: *mut u64, answer_numbers: usize) -> u64;
    fn mazurlot_whole(
        brand: u32,
        segment: *const u8,
        segment_bytes: usize,
        state: *mut u64,
        state_numbers: usize,
        work: *mut u8,
        work_bytes: usize,
        table: *mut u64,
        table_numbers: usize,
        answer: *mut u64,
        answer_numbers: usize,
    ) -> u64;
    fn mazurlot_lookup_ticks(
        ticks: u64,
        state: *const u64,
        state_numbers: usize,
        table: *const u64,
        table_numbers: usize,
        answer: *mut u64,
        answer_numbers: usize,
    ) -> u64;
    fn mazurlot_lookup_seconds(
        seconds: f64,
        state: *const u64,
        state_numbers: usize,
        table: *const u64,
        table_numbers: usize,
        answer: *mut u64,
        answer_numbers: usize,
    ) -> u64;
    fn mazurlot_resolve(
        page: u32,
        seconds: f64,
        state: *const u64,
        state_numbers: usize,
        table: *const u64,
        table_numbers: usize,
        answer: *mut u64,
        answer_numbers: usize,
    ) -> u64;
}

pub fn start(brand: u32, state: &mut Numbers) -> u64 {
    // SAFETY: pointer and length are those of one array, never null and aligned. Nothing else is lent.
    unsafe { mazurlot_start(brand, state.as_mut_ptr(), state.len()) }
}

pub fn feed(piece: &[u8], state: &mut Numbers, work: &mut [u8], table: &mut [u64], answer: &mut [u64; 1]) -> u64 {
    // SAFETY: each pointer is lent with the length of its own slice, never null and aligned. All four that are written are borrowed
    // exclusively, so none overlaps another or the piece.
    unsafe {
        mazurlot_feed(
            piece.as_ptr(),
            piece.len(),
            state.as_mut_ptr(),
            state.len(),
            work.as_mut_ptr(),
            work.len(),
            table.as_mut_ptr(),
            table.len(),
            answer.as_mut_ptr(),
            answer.len(),
        )
    }
}

pub fn finish(state: &mut Numbers, answer: &mut [u64; 1]) -> u64 {
    // SAFETY: each pointer is lent with the length of its own array, never null and aligned. Both are borrowed exclusively, so they do
    // not overlap.
    unsafe { mazurlot_finish(state.as_mut_ptr(), state.len(), answer.as_mut_ptr(), answer.len()) }
}

pub fn whole(brand: u32, segment: &[u8], state: &mut Numbers, work: &mut [u8], table: &mut [u64], answer: &mut [u64; 1]) -> u64 {
    // SAFETY: each pointer is lent with the length of its own slice, never null and aligned. All four that are written are borrowed
    // exclusively, so none overlaps another or the segment.
    unsafe {
        mazurlot_whole(
            brand,
            segment.as_ptr(),
            segment.len(),
            state.as_mut_ptr(),
            state.len(),
            work.as_mut_ptr(),
            work.len(),
            table.as_mut_ptr(),
            table.len(),
            answer.as_mut_ptr(),
            answer.len(),
        )
    }
}

pub fn lookup_ticks(ticks: u64, state: &Numbers, table: &[u64], answer: &mut [u64; 7]) -> u64 {
    // SAFETY: each pointer is lent with the length of its own slice, never null and aligned. The answer is borrowed exclusively, so it
    // overlaps neither of the others. The state is a private field of `List`, which gives no reference to it, so no table lies in it.
    unsafe { mazurlot_lookup_ticks(ticks, state.as_ptr(), state.len(), table.as_ptr(), table.len(), answer.as_mut_ptr(), answer.len()) }
}

pub fn lookup_seconds(seconds: f64, state: &Numbers, table: &[u64], answer: &mut [u64; 7]) -> u64 {
    // SAFETY: as in `lookup_ticks`; a double may have any bits.
    unsafe { mazurlot_lookup_seconds(seconds, state.as_ptr(), state.len(), table.as_ptr(), table.len(), answer.as_mut_ptr(), answer.len()) }
}

pub fn resolve(page: u32, seconds: f64, state: &Numbers, table: &[u64], answer: &mut [u64; 8]) -> u64 {
    // SAFETY: as in `lookup_ticks`; a page may be any number and a double may have any bits.
    unsafe { mazurlot_resolve(page, seconds, state.as_ptr(), state.len(), table.as_ptr(), table.len(), answer.as_mut_ptr(), answer.len()) }
}
