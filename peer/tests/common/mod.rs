//! What the tests share: segments made of boxes, and a peer that goes on by its own answers.
#![allow(dead_code)]

use peer::calls::{Answer, Call};
use peer::peer::{Peer, Said};
use peer::time::{Mark, Request};

pub const MSDH: u32 = u32::from_be_bytes(*b"msdh");
pub const SAP: u64 = 2_415_919_104;
pub const WORK: usize = 49_152;
pub const LIMIT: u64 = 268_435_456;

/// The place of a traf's phase in the state; inside a `tfhd` the peer does not say it.
const PHASE: usize = 46;

/// A box with a 32-bit size.
pub fn boxed(kind: &[u8; 4], body: &[u8]) -> Vec<u8> {
    [&(body.len() as u32 + 8).to_be_bytes(), kind.as_slice(), body].concat()
}

/// A box with a 64-bit size.
pub fn large(kind: &[u8; 4], body: &[u8]) -> Vec<u8> {
    [&1u32.to_be_bytes(), kind.as_slice(), &(body.len() as u64 + 16).to_be_bytes(), body].concat()
}

/// The numbers end to end, 32 bits each.
pub fn words(numbers: &[u64]) -> Vec<u8> {
    numbers.iter().flat_map(|number| (*number as u32).to_be_bytes()).collect()
}

pub fn styp() -> Vec<u8> {
    boxed(b"styp", b"msdh\0\0\0\0msdh")
}

/// An entry of an index: type bit, size, duration.
#[derive(Clone, Copy)]
pub struct Listed {
    pub index: bool,
    pub size: u64,
    pub duration: u64,
}

pub fn leaf_entry(size: u64, duration: u64) -> Listed {
    Listed { index: false, size, duration }
}

pub fn index_entry(size: u64, duration: u64) -> Listed {
    Listed { index: true, size, duration }
}

/// An index of version 0 with ID 1 and timescale 1000.
pub fn sidx(time: u64, offset: u64, entries: &[Listed]) -> Vec<u8> {
    let fields = words(&[0, 1, 1000, time, offset, entries.len() as u64]);
    boxed(b"sidx", &[fields, listed(entries)].concat())
}

/// An index of version 1 with ID 1 and timescale 1000.
pub fn sidx_wide(time: u64, offset: u64, entries: &[Listed]) -> Vec<u8> {
    let fields =
        [words(&[0x0100_0000, 1, 1000]), time.to_be_bytes().to_vec(), offset.to_be_bytes().to_vec(), words(&[entries.len() as u64])];
    boxed(b"sidx", &[fields.concat(), listed(entries)].concat())
}

fn listed(entries: &[Listed]) -> Vec<u8> {
    let entry = |entry: &Listed| words(&[(u64::from(entry.index) << 31) | entry.size, entry.duration, SAP]);
    entries.iter().flat_map(entry).collect()
}

pub fn tfhd(track: u64) -> Vec<u8> {
    boxed(b"tfhd", &words(&[0, track]))
}

pub fn tfdt(time: u64) -> Vec<u8> {
    boxed(b"tfdt", &words(&[0, time]))
}

pub fn moof(trafs: &[Vec<u8>]) -> Vec<u8> {
    let inside: Vec<u8> = trafs.iter().flat_map(|traf| boxed(b"traf", traf)).collect();
    boxed(b"moof", &inside)
}

pub fn traf(track: u64, time: u64) -> Vec<u8> {
    [tfhd(track), tfdt(time)].concat()
}

/// A leaf of 60 bytes.
pub fn leaf(time: u64) -> Vec<u8> {
    [moof(&[traf(1, time)]), boxed(b"mdat", &[0; 4])].concat()
}

/// Segment S of document 01, its open bytes as R18 has them.
pub fn s() -> Vec<u8> {
    [styp(), sidx(5000, 0, &[leaf_entry(60, 2000), leaf_entry(60, 3000)]), leaf(100), leaf(2100)].concat()
}

/// Segment T of document 01, its index entry having this duration.
pub fn t(duration: u64) -> Vec<u8> {
    [styp(), sidx(5000, 0, &[index_entry(176, duration)]), s()[20..].to_vec()].concat()
}

/// One leaf after `styp` and an index, with this as the leaf.
pub fn with_leaf(leaf: &[u8]) -> Vec<u8> {
    [styp(), sidx(0, 0, &[leaf_entry(leaf.len() as u64, 10)]), leaf.to_vec()].concat()
}

/// A peer whose calls are answered as it says itself.
#[derive(Clone, Default)]
pub struct Session {
    pub peer: Peer,
}

impl Session {
    /// With a work area of 49,152 bytes and a table for so many leaves.
    pub fn new(room: usize) -> Session {
        let mut session = Session::default();
        session.lend(Call::LendTable { numbers: 6 * room, each: 7 });
        session
    }

    /// After a start with the brand `msdh`.
    pub fn started(room: usize) -> Session {
        let mut session = Session::new(room);
        session.call(Call::Start { brand: MSDH });
        session
    }

    pub fn lend(&mut self, call: Call) {
        assert!(self.peer.judge(&call, None).is_ok());
    }

    pub fn call(&mut self, call: Call) -> Said {
        let said = self.peer.says(&call).expect("the outcome is known");
        let judged = self.peer.judge(&call, Some(&filled(&said)));
        assert!(judged.is_ok(), "{judged:?}");
        said
    }

    /// Number and place, or 0 and what is answered.
    pub fn feed(&mut self, part: &[u8]) -> (u64, u64) {
        first_two(&self.call(Call::Feed(part.to_vec())))
    }

    pub fn finish(&mut self) -> (u64, u64) {
        first_two(&self.call(Call::Finish))
    }

    pub fn lookup(&mut self, ticks: u64) -> (u64, u64) {
        first_two(&self.call(by_ticks(ticks)))
    }

    pub fn seconds(&mut self, seconds: f64) -> (u64, u64) {
        self.bits(seconds.to_bits())
    }

    /// Seconds as the bits of a double.
    pub fn bits(&mut self, bits: u64) -> (u64, u64) {
        first_two(&self.call(Call::Lookup(Request::Seconds(bits))))
    }

    /// A mark; the page that comes back is the third number.
    pub fn mark(&mut self, page: u32, seconds: f64) -> (u64, u64, u64) {
        let said = self.call(Call::Mark(Mark { page, seconds: seconds.to_bits() })).said;
        (said[0], said[1], said[8])
    }

    /// The state's numbers, those that are not said as 0. An empty part changes nothing and hands the state back.
    pub fn state(&mut self) -> Vec<u64> {
        let said = self.call(Call::Feed(Vec::new()));
        filled(&said).state
    }
}

pub fn by_ticks(ticks: u64) -> Call {
    Call::Lookup(Request::Ticks(ticks))
}

pub fn first_two(said: &Said) -> (u64, u64) {
    (said.said[0], said.said[1])
}

/// The answer that the peer says, with something in the ranges where it does not say a number.
pub fn filled(said: &Said) -> Answer {
    let mut state: Vec<u64> = said.state.iter().map(|number| number.unwrap_or(0)).collect();
    if said.state.get(PHASE) == Some(&None) {
        state[PHASE] = 1;
    }
    Answer { said: said.said, state, work: said.work.clone(), table: said.table.clone() }
}

/// What the whole reader answers to a segment, with room for 256 leaves.
pub fn whole(segment: &[u8]) -> (u64, u64) {
    first_two(&Session::new(256).call(Call::Whole { brand: MSDH, segment: segment.to_vec() }))
}

/// Numbers that look random and are the same at every run.
pub struct Random(pub u64);

impl Random {
    pub fn below(&mut self, bound: usize) -> usize {
        self.0 ^= self.0 << 13;
        self.0 ^= self.0 >> 7;
        self.0 ^= self.0 << 17;
        (self.0 % bound as u64) as usize
    }
}

/// The lines of the first of these files that exists; their parts are divided by tabs. The folder of the file is given too.
pub fn lines(file: &str) -> (std::path::PathBuf, Vec<(String, String)>) {
    let root = std::path::Path::new(env!("CARGO_MANIFEST_DIR"));
    let file = root.join(file);
    let text = std::fs::read_to_string(&file).expect("the file can be read");
    let parts = text.lines().filter_map(|line| line.split_once('\t')).map(|(one, two)| (one.to_string(), two.to_string()));
    (file.parent().expect("a file has a folder").to_path_buf(), parts.collect())
}

pub fn vectors() -> Vec<(Vec<u8>, String)> {
    let (_, lines) = lines("../crates/cases/data/vectors.tsv");
    lines.into_iter().map(|(hex, listing)| (bytes(&hex), listing)).collect()
}

fn bytes(hex: &str) -> Vec<u8> {
    hex.as_bytes().chunks(2).map(|two| u8::from_str_radix(std::str::from_utf8(two).unwrap(), 16).unwrap()).collect()
}
