//! The segment index of a 3GP media segment, read and looked up.
//!
//! A film's segment is read once, in parts as they come ([`Reader`]) or at once ([`whole`]). That lists its leaves: the byte ranges that
//! can be fetched, each with its start and its duration. Then times are looked up in the [`List`]. What is not as it should be is refused,
//! with a number and a place ([`Refusal`]).
//!
//! ```
//! use mazurlot::{Reader, Reason, MSDH};
//!
//! // A segment of two leaves. The first starts at 5 seconds, the second at 7, and the film ends at 10.
//! let segment = include_bytes!(concat!(env!("CARGO_MANIFEST_DIR"), "/../../crates/list/stdin"));
//!
//! let mut reader = Reader::new(MSDH, 256);
//! for piece in segment.chunks(50) {
//!     reader.feed(piece)?;
//! }
//! let list = reader.finish()?;
//!
//! let leaf = list.lookup_seconds(7.0)?;
//! assert_eq!((leaf.number, leaf.bytes()), (2, 136..196));
//! assert_eq!(list.lookup_seconds(10.0).unwrap_err().reason, Reason::PastList);
//! # Ok::<(), mazurlot::Refusal>(())
//! ```
//!
//! The reading itself is the compiled library libmazurlot.a, which the build script finds (README.md). It allocates nothing: a call
//! touches what it is lent, and whatever the bytes and numbers are, it returns. [`Reader::new`] and [`whole`] lend buffers of their own,
//! [`Reader::lent`] and [`whole_lent`] those of the caller.

#![deny(unsafe_code)]
#![warn(missing_docs)]

mod list;
mod reader;
mod refusal;
mod state;
#[allow(unsafe_code)]
mod sys;

pub use list::{Leaf, List, Mark, Resolved};
pub use reader::{whole, whole_lent, Reader};
pub use refusal::{Reason, Refusal};
pub use state::State;

/// The brand of media segments, `msdh`: the one that most films' `styp` lists.
pub const MSDH: [u8; 4] = *b"msdh";

/// How many numbers a state has.
pub const STATE_NUMBERS: usize = 57;

/// How many bytes a work area has, at least.
pub const WORK_BYTES: usize = 49_152;

/// How many numbers of the table a leaf takes: position, size, start, duration, SAP word, decode time.
pub const RECORD_NUMBERS: usize = 6;

/// The most leaves that are listed, however long the table is.
pub const MOST_LEAVES: usize = 4_096;
