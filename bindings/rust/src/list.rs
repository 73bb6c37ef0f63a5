//! The list of a segment's leaves, and the lookups in it.

use crate::{sys, Reason, Refusal, State, RECORD_NUMBERS};
use std::ops::Range;

/// A leaf: a byte range that can be fetched, and the time that it covers. Times are in ticks of the list's timescale, on the index's own
/// time line.
#[derive(Clone, Copy, Debug, PartialEq, Eq, Hash)]
pub struct Leaf {
    /// Its number in the list, from 1 on.
    pub number: u64,
    /// The first byte to fetch, counted from 0 in the segment.
    pub position: u64,
    /// How many bytes to fetch.
    pub size: u64,
    /// The first tick that the leaf covers.
    pub start: u64,
    /// How many ticks it covers.
    pub duration: u64,
    /// The entry's SAP word.
    pub sap: u64,
    /// The first decode time of the reference track.
    pub decode_time: u64,
}

impl Leaf {
    /// The bytes to fetch. Its end is the byte after the last one.
    ///
    /// ```
    /// # let segment = include_bytes!(concat!(env!("CARGO_MANIFEST_DIR"), "/../../crates/list/stdin"));
    /// # let list = mazurlot::whole(mazurlot::MSDH, segment, 256)?;
    /// let bytes = list.lookup_seconds(5.0)?.bytes();
    /// assert_eq!(format!("Range: bytes={}-{}", bytes.start, bytes.end - 1), "Range: bytes=76-135");
    /// # Ok::<(), mazurlot::Refusal>(())
    /// ```
    pub fn bytes(&self) -> Range<u64> {
        // The sum fits for every leaf that a reading listed; a table from elsewhere may hold anything.
        self.position..self.position.saturating_add(self.size)
    }

    /// The leaf of a record, which has six numbers in this order.
    fn new(number: u64, record: &[u64]) -> Leaf {
        let [position, size, start, duration, sap, decode_time] = [0, 1, 2, 3, 4, 5].map(|at| record[at]);
        Leaf { number, position, size, start, duration, sap, decode_time }
    }
}

/// A mark of a course book: the page it stands on, and its time in the film.
#[derive(Clone, Copy, Debug, PartialEq)]
pub struct Mark {
    /// The page of the book.
    pub page: u32,
    /// The time in seconds.
    pub seconds: f64,
}

/// The answer to a mark.
#[derive(Clone, Copy, Debug, PartialEq, Eq)]
pub struct Resolved {
    /// The mark's page.
    pub page: u32,
    /// The leaf that covers the mark's seconds.
    pub leaf: Result<Leaf, Refusal>,
}

/// The leaves of a segment that was accepted.
#[derive(Clone, Debug)]
pub struct List<T = Vec<u64>> {
    state: State,
    table: T,
}

impl<T> List<T> {
    /// The list of an accepted state.
    pub(crate) fn accepted(state: State, table: T) -> List<T> {
        List { state, table }
    }

    /// How many ticks a second has.
    pub fn timescale(&self) -> u32 {
        self.state.timescale()
    }

    /// State and table, to be kept.
    pub fn into_parts(self) -> (State, T) {
        (self.state, self.table)
    }
}

impl<T: AsRef<[u64]>> List<T> {
    /// The list of a state and a table that were kept. Refuses a state that is none ([`Reason::NoState`]) or not that of a list
    /// ([`Reason::OutOfOrder`]), and a table that is shorter than the list ([`Reason::ShortTable`]).
    ///
    /// ```
    /// # let segment = include_bytes!(concat!(env!("CARGO_MANIFEST_DIR"), "/../../crates/list/stdin"));
    /// # use mazurlot::{whole, List, MSDH};
    /// let (state, table) = whole(MSDH, segment, 256)?.into_parts();
    /// let list = List::from_parts(state, table)?;
    /// assert_eq!(list.leaves().len(), 2);
    /// # Ok::<(), mazurlot::Refusal>(())
    /// ```
    pub fn from_parts(state: State, table: T) -> Result<List<T>, Refusal> {
        let list = List { state, table };
        // A lookup looks at state and table before it looks at the time, so whatever it says of the time, both are in order.
        match list.lookup_ticks(0) {
            Err(refusal) if !matches!(refusal.reason, Reason::BeforeList | Reason::PastList) => Err(refusal),
            _ => Ok(list),
        }
    }

    /// All leaves, in order.
    ///
    /// ```
    /// # let segment = include_bytes!(concat!(env!("CARGO_MANIFEST_DIR"), "/../../crates/list/stdin"));
    /// # let list = mazurlot::whole(mazurlot::MSDH, segment, 256)?;
    /// let starts: Vec<u64> = list.leaves().map(|leaf| leaf.start).collect();
    /// assert_eq!(starts, [5000, 7000]);
    /// # Ok::<(), mazurlot::Refusal>(())
    /// ```
    pub fn leaves(&self) -> impl ExactSizeIterator<Item = Leaf> + '_ {
        let records = self.table.as_ref().chunks_exact(RECORD_NUMBERS).take(self.state.leaves());
        records.enumerate().map(|(at, record)| Leaf::new(at as u64 + 1, record))
    }

    /// The leaf that covers a time in ticks.
    ///
    /// ```
    /// # let segment = include_bytes!(concat!(env!("CARGO_MANIFEST_DIR"), "/../../crates/list/stdin"));
    /// # let list = mazurlot::whole(mazurlot::MSDH, segment, 256)?;
    /// assert_eq!(list.lookup_ticks(7000)?.number, 2);
    /// assert_eq!(list.lookup_ticks(4999).unwrap_err().reason, mazurlot::Reason::BeforeList);
    /// # Ok::<(), mazurlot::Refusal>(())
    /// ```
    pub fn lookup_ticks(&self, ticks: u64) -> Result<Leaf, Refusal> {
        let mut answer = [0; 7];
        let number = sys::lookup_ticks(ticks, self.state.numbers(), self.table.as_ref(), &mut answer);
        found(number, &answer)
    }

    /// The leaf that covers a time in seconds, taken at its exact value: nothing is rounded.
    ///
    /// ```
    /// # let segment = include_bytes!(concat!(env!("CARGO_MANIFEST_DIR"), "/../../crates/list/stdin"));
    /// # let list = mazurlot::whole(mazurlot::MSDH, segment, 256)?;
    /// assert_eq!(list.lookup_seconds(7.0)?.number, 2);
    /// assert_eq!(list.lookup_seconds(7.0_f64.next_down())?.number, 1);
    /// # Ok::<(), mazurlot::Refusal>(())
    /// ```
    pub fn lookup_seconds(&self, seconds: f64) -> Result<Leaf, Refusal> {
        let mut answer = [0; 7];
        let number = sys::lookup_seconds(seconds, self.state.numbers(), self.table.as_ref(), &mut answer);
        found(number, &answer)
    }

    /// The answer to a mark: its page, and what a lookup of its seconds gives, a refusal too.
    ///
    /// ```
    /// # let segment = include_bytes!(concat!(env!("CARGO_MANIFEST_DIR"), "/../../crates/list/stdin"));
    /// # let list = mazurlot::whole(mazurlot::MSDH, segment, 256)?;
    /// use mazurlot::{Mark, Resolved};
    ///
    /// let Resolved { page, leaf } = list.resolve(Mark { page: 12, seconds: 9.5 });
    /// assert_eq!((page, leaf?.bytes()), (12, 136..196));
    /// # Ok::<(), mazurlot::Refusal>(())
    /// ```
    pub fn resolve(&self, mark: Mark) -> Resolved {
        let mut answer = [0; 2 + RECORD_NUMBERS];
        let number = sys::resolve(mark.page, mark.seconds, self.state.numbers(), self.table.as_ref(), &mut answer);
        let [lookup @ .., page] = &answer;
        // The page stands behind the lookup's answer, but for a refusal with 2, which writes nothing.
        let page = if number == Reason::NoState.number() { mark.page } else { *page as u32 };
        Resolved { page, leaf: found(number, lookup) }
    }
}

/// What a lookup gives: the leaf's number and its record, or for a refusal the place.
fn found(number: u64, answer: &[u64; 1 + RECORD_NUMBERS]) -> Result<Leaf, Refusal> {
    let [first, record @ ..] = answer;
    if number == 0 {
        Ok(Leaf::new(*first, record))
    } else {
        Err(Refusal::new(number, *first))
    }
}
