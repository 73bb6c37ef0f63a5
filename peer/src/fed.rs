//! The bytes fed since start.

/// How many bytes before the latest part are kept. What came earlier stands in the tree; only a header that has not ended may still be
/// asked for, and it has at most 16 bytes.
const KEPT: usize = 16;

/// The bytes of the segment as far as they have come. The tree takes each number when its last byte comes, so only the latest bytes are
/// kept, and a segment of 268,435,456 bytes needs no such memory.
#[derive(Clone, Debug, Default)]
pub struct Fed {
    /// The place of the first byte that is kept.
    from: u64,
    bytes: Vec<u8>,
}

impl Fed {
    /// How many bytes have come.
    pub fn count(&self) -> u64 {
        self.from + self.bytes.len() as u64
    }

    /// The bytes of one more part come.
    pub fn add(&mut self, part: &[u8]) {
        let gone = self.bytes.len().saturating_sub(KEPT);
        self.bytes.drain(..gone);
        self.from += gone as u64;
        self.bytes.extend_from_slice(part);
    }

    /// The bytes at the places `from..to`, if all of them have come.
    pub fn slice(&self, from: u64, to: u64) -> Option<&[u8]> {
        let first = usize::try_from(from.checked_sub(self.from)?).ok()?;
        let last = usize::try_from(to.checked_sub(self.from)?).ok()?;
        self.bytes.get(first..last)
    }

    /// The big-endian number of `width` bytes at the place `at`, if its last byte has come.
    pub fn number(&self, at: u64, width: u64) -> Option<u64> {
        self.slice(at, at.checked_add(width)?).map(spelled)
    }

    /// Takes the number into `kept` unless it stands there already.
    pub fn read_once(&self, kept: &mut Option<u64>, at: u64, width: u64) {
        if kept.is_none() {
            *kept = self.number(at, width);
        }
    }
}

/// The number that these bytes spell, the first one highest.
pub fn spelled(bytes: &[u8]) -> u64 {
    bytes.iter().fold(0, |number, byte| number << 8 | u64::from(*byte))
}
