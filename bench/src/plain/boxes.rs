//! Box headers and fields.

use super::{refusal, Refusal};
use std::num::NonZeroU64;

// A type is only compared, so its four bytes are taken as the processor has them.
pub const STYP: u32 = u32::from_ne_bytes(*b"styp");
pub const SIDX: u32 = u32::from_ne_bytes(*b"sidx");
pub const MOOF: u32 = u32::from_ne_bytes(*b"moof");
pub const MDAT: u32 = u32::from_ne_bytes(*b"mdat");
pub const TRAF: u32 = u32::from_ne_bytes(*b"traf");
pub const TFHD: u32 = u32::from_ne_bytes(*b"tfhd");
pub const TFDT: u32 = u32::from_ne_bytes(*b"tfdt");
pub const TFAD: u32 = u32::from_ne_bytes(*b"tfad");

/// Why something was not read: the bytes that are there show a fault, or there are too few of them to tell.
#[derive(Clone, Copy, Debug, PartialEq, Eq)]
pub enum Stop {
    Fault(u32),
    More,
}

impl Stop {
    /// The number, where the box is in memory to its end.
    pub fn number(self) -> u32 {
        match self {
            Stop::Fault(number) => number,
            Stop::More => unreachable!("the box is in memory to its end"),
        }
    }
}

pub fn byte_at(bytes: &[u8], at: usize) -> Result<u8, Stop> {
    bytes.get(at).copied().ok_or(Stop::More)
}

pub fn u16_at(bytes: &[u8], at: usize) -> Result<u16, Stop> {
    field(bytes, at).map(u16::from_be_bytes)
}

pub fn u32_at(bytes: &[u8], at: usize) -> Result<u32, Stop> {
    field(bytes, at).map(u32::from_be_bytes)
}

pub fn u64_at(bytes: &[u8], at: usize) -> Result<u64, Stop> {
    field(bytes, at).map(u64::from_be_bytes)
}

fn field<const WIDTH: usize>(bytes: &[u8], at: usize) -> Result<[u8; WIDTH], Stop> {
    bytes.get(at..).and_then(|rest| rest.first_chunk()).copied().ok_or(Stop::More)
}

#[derive(Clone, Copy, Debug)]
pub struct Header {
    pub kind: u32,
    /// How many bytes the header has, 8 or 16.
    pub length: usize,
    /// How many bytes the box has, with its header.
    pub size: usize,
}

impl Header {
    pub fn body(&self) -> usize {
        self.size - self.length
    }
}

/// Reads a box's header from the bytes that are there. `remaining` is how many its container has left, whether they are there or not.
pub fn header(bytes: &[u8], remaining: usize) -> Result<Header, Stop> {
    if remaining < 8 && !bytes.is_empty() {
        return Err(Stop::Fault(5));
    }
    let (size, kind) = (u32_at(bytes, 0)?, field(bytes, 4).map(u32::from_ne_bytes)?);
    let (length, size) = match size {
        1 if remaining < 16 => return Err(Stop::Fault(5)),
        1 => (16, u64_at(bytes, 8)?),
        _ => (8, u64::from(size)),
    };
    if size < length as u64 {
        return Err(Stop::Fault(4));
    }
    if size > remaining as u64 {
        return Err(Stop::Fault(5));
    }
    Ok(Header { kind, length, size: size as usize })
}

/// The number of a box that is known at the top level and may not stand where it stands. A length that its type never has goes before.
#[cold]
pub fn misplaced(kind: u32, body: usize) -> u32 {
    match kind {
        STYP if bad_styp_length(body) => 6,
        STYP => 7,
        SIDX if body < 24 => 6,
        _ => 9,
    }
}

pub fn bad_styp_length(body: usize) -> bool {
    body < 8 || !body.is_multiple_of(4)
}

/// Reads the decode time from the body of a `tfdt`.
#[inline]
pub fn decode_time(body: &[u8]) -> Result<u64, u32> {
    match *body {
        [0, _, _, _, a, b, c, d] => Ok(u32::from_be_bytes([a, b, c, d]).into()),
        [1, _, _, _, a, b, c, d, e, f, g, h] => Ok(u64::from_be_bytes([a, b, c, d, e, f, g, h])),
        [0 | 1, ..] => Err(6),
        _ => Err(10),
    }
}

/// A fault of a segment in memory: its number, and where that starts which it is about. The place is worked out once, when the fault goes
/// out, so that no walk has to count places.
#[derive(Clone, Copy)]
pub struct Fault {
    number: NonZeroU64,
    at: *const u8,
}

impl Fault {
    pub fn at(bytes: &[u8], number: u32) -> Fault {
        Fault { number: NonZeroU64::new(number.into()).expect("no refusal has number 0"), at: bytes.as_ptr() }
    }

    /// The refusal, where the bytes read stand at a place of the segment.
    pub fn refused(self, bytes: &[u8], place: usize) -> Refusal {
        refusal(self.number.get() as u32, self.at as usize - bytes.as_ptr() as usize + place)
    }
}

/// A box in a list of boxes: the list from the box on, its body, and what follows it there.
#[derive(Clone, Copy)]
pub struct BoxRead<'a> {
    pub kind: u32,
    pub list: &'a [u8],
    pub body: &'a [u8],
    pub rest: &'a [u8],
}

/// Reads the first box of a list. None where the list is empty. Nearly every header has 8 bytes and no fault; what else there is, is left
/// to `unusual_box`.
#[inline(always)]
pub fn next_box(list: &[u8]) -> Result<Option<BoxRead<'_>>, Fault> {
    if let Some((&[a, b, c, d, ref kind @ ..], after)) = list.split_first_chunk::<8>() {
        let size = u32::from_be_bytes([a, b, c, d]) as usize;
        // A size under 8 becomes one that no list has, so that it is not taken either.
        if let Some((body, rest)) = after.split_at_checked(size.wrapping_sub(8)) {
            return Ok(Some(BoxRead { kind: u32::from_ne_bytes(*kind), list, body, rest }));
        }
    } else if list.is_empty() {
        return Ok(None);
    }
    unusual_box(list).map(Some)
}

#[cold]
fn unusual_box(list: &[u8]) -> Result<BoxRead<'_>, Fault> {
    let Header { kind, length, size } = header(list, list.len()).map_err(|stop| Fault::at(list, stop.number()))?;
    Ok(BoxRead { kind, list, body: &list[length..size], rest: &list[size..] })
}
