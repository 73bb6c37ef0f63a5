//! The reader fed in parts, and the reader of a whole segment.

use crate::{sys, List, Refusal, State, MOST_LEAVES, RECORD_NUMBERS, WORK_BYTES};

/// Reads a segment in parts, as they come.
///
/// It holds the state, a work area `W` and a table `T`: its own ([`Reader::new`]), or what the caller lends ([`Reader::lent`]).
#[derive(Clone, Debug)]
pub struct Reader<W = Box<[u8]>, T = Vec<u64>> {
    state: State,
    work: W,
    table: T,
}

impl Reader {
    /// A reader with a work area of its own and a table with room for so many leaves, 4,096 at most. The brand is the one that the
    /// segment's `styp` has to list among its compatible ones.
    ///
    /// ```
    /// # let segment = include_bytes!(concat!(env!("CARGO_MANIFEST_DIR"), "/../../crates/list/stdin"));
    /// use mazurlot::{Reader, MSDH};
    ///
    /// let mut reader = Reader::new(MSDH, 256);
    /// reader.feed(segment)?;
    /// assert_eq!(reader.finish()?.leaves().len(), 2);
    /// # Ok::<(), mazurlot::Refusal>(())
    /// ```
    pub fn new(brand: [u8; 4], leaves: usize) -> Reader {
        Reader::lent(brand, own_work(), own_table(leaves))
    }
}

impl<W: AsMut<[u8]>, T: AsMut<[u64]>> Reader<W, T> {
    /// A reader with the caller's work area, of at least [`WORK_BYTES`] bytes, and the caller's table, [`RECORD_NUMBERS`] numbers a leaf.
    ///
    /// ```
    /// # let segment = include_bytes!(concat!(env!("CARGO_MANIFEST_DIR"), "/../../crates/list/stdin"));
    /// use mazurlot::{Reader, MSDH, RECORD_NUMBERS, WORK_BYTES};
    ///
    /// let (mut work, mut table) = ([0; WORK_BYTES], [0; 2 * RECORD_NUMBERS]);
    /// let mut reader = Reader::lent(MSDH, &mut work, &mut table);
    /// reader.feed(segment)?;
    /// reader.finish()?;
    /// assert_eq!(table, [76, 60, 5000, 2000, 2415919104, 100, 136, 60, 7000, 3000, 2415919104, 2100]);
    /// # Ok::<(), mazurlot::Refusal>(())
    /// ```
    pub fn lent(brand: [u8; 4], work: W, table: T) -> Reader<W, T> {
        Reader::from_parts(State::start(brand), work, table)
    }

    /// Takes the next part of the segment, of any length. Gives the count of all bytes read so far.
    ///
    /// A refusal about the segment is kept: every later feed gives it again, and so does [`Reader::finish`].
    ///
    /// ```
    /// # let segment = include_bytes!(concat!(env!("CARGO_MANIFEST_DIR"), "/../../crates/list/stdin"));
    /// # let mut reader = mazurlot::Reader::new(mazurlot::MSDH, 256);
    /// assert_eq!(reader.feed(&segment[..100]), Ok(100));
    /// assert_eq!(reader.feed(&segment[100..]), Ok(196));
    /// ```
    pub fn feed(&mut self, piece: &[u8]) -> Result<u64, Refusal> {
        let mut answer = [0];
        let number = sys::feed(piece, self.state.numbers_mut(), self.work.as_mut(), self.table.as_mut(), &mut answer);
        answered(number, answer[0])
    }

    /// Says that the segment has no more bytes. Gives the list of its leaves; the work area is not needed any more.
    ///
    /// ```
    /// # let segment = include_bytes!(concat!(env!("CARGO_MANIFEST_DIR"), "/../../crates/list/stdin"));
    /// # let mut reader = mazurlot::Reader::new(mazurlot::MSDH, 256);
    /// reader.feed(&segment[..195])?;
    /// let refusal = reader.finish().unwrap_err();
    /// assert_eq!((refusal.reason, refusal.place), (mazurlot::Reason::Unfinished, 195));
    /// # Ok::<(), mazurlot::Refusal>(())
    /// ```
    pub fn finish(mut self) -> Result<List<T>, Refusal> {
        let mut answer = [0];
        let number = sys::finish(self.state.numbers_mut(), &mut answer);
        answered(number, answer[0])?;
        Ok(List::accepted(self.state, self.table))
    }

    /// A reading that goes on where [`Reader::into_parts`] left it. The three belong together: with others a reading is as safe, but
    /// answers by what it finds.
    pub fn from_parts(state: State, work: W, table: T) -> Reader<W, T> {
        Reader { state, work, table }
    }

    /// State, work area and table, to be kept until the next part comes.
    ///
    /// ```
    /// # let segment = include_bytes!(concat!(env!("CARGO_MANIFEST_DIR"), "/../../crates/list/stdin"));
    /// # use mazurlot::{Reader, MSDH};
    /// # let mut reader = Reader::new(MSDH, 256);
    /// reader.feed(&segment[..100])?;
    /// let (state, work, table) = reader.into_parts();
    ///
    /// let mut reader = Reader::from_parts(state, work, table);
    /// reader.feed(&segment[100..])?;
    /// reader.finish()?;
    /// # Ok::<(), mazurlot::Refusal>(())
    /// ```
    pub fn into_parts(self) -> (State, W, T) {
        (self.state, self.work, self.table)
    }
}

/// Reads a whole segment in memory, with buffers of its own and room for so many leaves, 4,096 at most. It gives what one feed of all the
/// bytes and a finish give, and is faster.
///
/// ```
/// # let segment = include_bytes!(concat!(env!("CARGO_MANIFEST_DIR"), "/../../crates/list/stdin"));
/// let list = mazurlot::whole(mazurlot::MSDH, segment, 256)?;
/// assert_eq!(list.lookup_ticks(6999)?.number, 1);
/// # Ok::<(), mazurlot::Refusal>(())
/// ```
pub fn whole(brand: [u8; 4], segment: &[u8], leaves: usize) -> Result<List, Refusal> {
    whole_lent(brand, segment, own_work(), own_table(leaves))
}

/// The same with the caller's work area, of at least [`WORK_BYTES`] bytes, and the caller's table, [`RECORD_NUMBERS`] numbers a leaf.
///
/// ```
/// # let segment = include_bytes!(concat!(env!("CARGO_MANIFEST_DIR"), "/../../crates/list/stdin"));
/// use mazurlot::{whole_lent, MSDH, WORK_BYTES};
///
/// let (mut work, mut table) = (vec![0; WORK_BYTES], vec![0; 6 * 256]);
/// let list = whole_lent(MSDH, segment, &mut work, &mut table)?;
/// assert_eq!(list.leaves().len(), 2);
/// # Ok::<(), mazurlot::Refusal>(())
/// ```
pub fn whole_lent<W: AsMut<[u8]>, T: AsMut<[u64]>>(brand: [u8; 4], segment: &[u8], mut work: W, mut table: T) -> Result<List<T>, Refusal> {
    let (mut state, mut answer) = (State::none(), [0]);
    let number = sys::whole(u32::from_be_bytes(brand), segment, state.numbers_mut(), work.as_mut(), table.as_mut(), &mut answer);
    answered(number, answer[0])?;
    Ok(List::accepted(state, table))
}

/// What was answered, or the refusal whose place was.
fn answered(number: u64, answer: u64) -> Result<u64, Refusal> {
    if number == 0 {
        Ok(answer)
    } else {
        Err(Refusal::new(number, answer))
    }
}

fn own_work() -> Box<[u8]> {
    vec![0; WORK_BYTES].into_boxed_slice()
}

fn own_table(leaves: usize) -> Vec<u64> {
    vec![0; leaves.min(MOST_LEAVES) * RECORD_NUMBERS]
}
