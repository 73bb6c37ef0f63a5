//! A reading that goes past byte 268,435,456.

use super::random::Random;
use super::sequence::Sequence;
use super::sessions::WORK;
use super::states::LIMIT;
use crate::calls::{Call, STATE_NUMBERS};
use crate::time::Request;

const PART: usize = 524_288;
const BRAND: [u8; 4] = *b"msdh";

/// A reading of all bytes that a segment may have and of some more; its parts are one part's bytes.
pub fn past_the_limit(random: &mut Random) -> Sequence {
    let (head, last) = if random.chance(50) { skipped_to_the_end(random) } else { leaf_to_the_end() };
    let parts = (LIMIT as usize - head.len() - last.len()) / PART;
    let rest = LIMIT as usize - head.len() - last.len() - parts * PART;
    let lead = vec![
        Call::LendState(vec![0; STATE_NUMBERS]),
        Call::LendWork { bytes: WORK, each: 0 },
        Call::LendTable { numbers: 12, each: 0 },
        Call::Start { brand: u32::from_be_bytes(BRAND) },
        Call::Feed(head),
    ];
    let mut ending = vec![0; rest];
    ending.extend(last);
    let mut tail = Vec::new();
    if random.chance(50) {
        // The byte at fault comes in one part with those before it.
        ending.extend([0, 0]);
    } else {
        tail.push(Call::Feed(vec![]));
        tail.push(Call::Feed(vec![random.byte()]));
    }
    tail.insert(0, Call::Feed(ending));
    tail.extend([Call::Feed(vec![0; 9]), Call::Finish, Call::Lookup(Request::Ticks(0)), Call::Lookup(Request::Seconds(0))]);
    Sequence { lead, repeated: Some((Call::Feed(vec![0; PART]), parts)), tail, doubt: None }
}

fn boxed(kind: &[u8; 4], size: u64, body: &[u8]) -> Vec<u8> {
    [&(size as u32).to_be_bytes(), &kind[..], body].concat()
}

fn styp() -> Vec<u8> {
    boxed(b"styp", 20, &[&BRAND[..], &[0; 4], &BRAND].concat())
}

/// A skipped box up to the limit, or to a short one that ends there.
fn skipped_to_the_end(random: &mut Random) -> (Vec<u8>, Vec<u8>) {
    let styp = styp();
    let last = match random.pick(&[0, 8, 9]) {
        0 => Vec::new(),
        size => boxed(b"free", size, &vec![0; size as usize - 8]),
    };
    let size = LIMIT - (styp.len() + last.len()) as u64;
    let header = if random.chance(50) { boxed(b"skip", size, &[]) } else { boxed(b"skip", 1, &size.to_be_bytes()) };
    ([styp, header].concat(), last)
}

/// A leaf whose `mdat` ends at the limit, so that the material ends there too.
fn leaf_to_the_end() -> (Vec<u8>, Vec<u8>) {
    let tfhd = boxed(b"tfhd", 16, &[0, 0, 0, 0, 0, 0, 0, 1]);
    let tfdt = boxed(b"tfdt", 16, &[0; 8]);
    let moof = boxed(b"moof", 48, &boxed(b"traf", 40, &[tfhd, tfdt].concat()));
    let styp = styp();
    let leaf = LIMIT - styp.len() as u64 - 44;
    let words = [0, 1, 1000, 0, 0, 1, leaf as u32, 5000, 0];
    let sidx = boxed(b"sidx", 44, &words.iter().flat_map(|word: &u32| word.to_be_bytes()).collect::<Vec<u8>>());
    let mdat = boxed(b"mdat", leaf - 48, &[]);
    ([styp, sidx, moof, mdat].concat(), Vec::new())
}
