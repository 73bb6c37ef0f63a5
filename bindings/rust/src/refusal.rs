//! Refusals: what was refused, and where.

use std::error::Error;
use std::fmt;

/// A refusal: its number, as a [`Reason`], and its place.
///
/// A number that this crate does not know can come only from an archive of another version. It is no refusal then, and the call panics.
///
/// ```
/// use mazurlot::{whole, Reason, MSDH};
///
/// let refusal = whole(MSDH, b"<html>not found</html>", 256).unwrap_err();
/// assert_eq!((refusal.reason, refusal.place), (Reason::BoxTooLong, 0));
/// assert_eq!(refusal.reason.number(), 5);
/// assert_eq!(refusal.to_string(), "refused with 5 at place 0: A box ends past what it stands in, or too few bytes remain for a box.");
/// ```
#[derive(Clone, Copy, Debug, PartialEq, Eq, Hash)]
pub struct Refusal {
    /// What was refused.
    pub reason: Reason,
    /// The byte of the segment that it is about, counted from 0, mostly the first one of a box; 0 where it is about the call.
    pub place: u64,
}

impl Refusal {
    /// The refusal of a number that a call returned. The numbers are this crate's own, unless the archive is of another version.
    pub(crate) fn new(number: u64, place: u64) -> Refusal {
        let reason = Reason::from_number(number);
        Refusal {
            reason: reason.unwrap_or_else(|| panic!("libmazurlot.a gave the refusal {number}, which this crate does not know")),
            place,
        }
    }
}

impl fmt::Display for Refusal {
    fn fmt(&self, f: &mut fmt::Formatter<'_>) -> fmt::Result {
        write!(f, "refused with {} at place {}: {}", self.reason.number(), self.place, self.reason)
    }
}

impl Error for Refusal {}

/// Makes the enum and all that is said of its cases, from one line each.
macro_rules! reasons {
    ($($number:literal $name:ident $sentence:literal)*) => {
        /// The refusals by name. Those from 3 to 21 are about the segment, and are kept: every later feed or finish gives them again.
        #[derive(Clone, Copy, Debug, PartialEq, Eq, Hash)]
        #[non_exhaustive]
        pub enum Reason {
            $(
                #[doc = concat!("Number ", $number, ". ", $sentence)]
                $name = $number,
            )*
        }

        impl Reason {
            /// The reason that has this number.
            pub fn from_number(number: u64) -> Option<Reason> {
                match number {
                    $($number => Some(Reason::$name),)*
                    _ => None,
                }
            }

            fn sentence(self) -> &'static str {
                match self {
                    $(Reason::$name => $sentence,)*
                }
            }
        }
    };
}

reasons! {
    1 SmallWorkArea "The work area has under 49,152 bytes."
    2 NoState "What is lent as state is none, or the answer has too little room. Nothing is written."
    3 SegmentTooLong "The segment has more than 268,435,456 bytes."
    4 BadBoxSize "A box's size is one that no box has."
    5 BoxTooLong "A box ends past what it stands in, or too few bytes remain for a box."
    6 BadBodyLength "The body of a styp, sidx, tfhd or tfdt has not the length that it must have."
    7 StypOutOfPlace "The first box is not a styp, or a second styp follows."
    8 BrandNotListed "The styp does not list the brand wanted among its compatible ones."
    9 BoxOutOfPlace "A moof, mdat or sidx stands where it may not."
    10 UnknownVersion "A sidx or tfdt has a version above 1."
    11 BadIndexNumber "A timescale of 0, no entry or more than 1,024, or an entry of size 0."
    12 IndexDisagrees "An inner index disagrees with its entry, or a stored entry was altered between calls."
    13 TooDeep "An index stands on a fifth level."
    14 PastLimits "The material ends past byte 268,435,456, or its time past 2^64 - 1."
    15 TableFull "There are more leaves than the table has room for."
    16 BadTrackFragment "A traf has not one tfhd and then one tfdt."
    17 Tfad "A traf has a tfad."
    18 DecodeTimeFalls "The reference track's decode time falls."
    19 NoDecodeTime "A leaf has no decode time of the reference track."
    20 Unfinished "The segment ends before its material does."
    21 BytesAfterEnd "A byte follows the material."
    22 OutOfOrder "A feed or finish after an accepted finish, or a lookup without one."
    23 BeforeList "The time is before the first leaf."
    24 PastList "The time is in no leaf, and not before the first."
    25 ShortTable "The table is shorter than the list."
    26 NoTime "The seconds are not a number, infinite, or below zero."
}

impl Reason {
    /// The number, from 1 to 26.
    pub fn number(self) -> u64 {
        self as u64
    }
}

impl fmt::Display for Reason {
    fn fmt(&self, f: &mut fmt::Formatter<'_>) -> fmt::Result {
        f.write_str(self.sentence())
    }
}
