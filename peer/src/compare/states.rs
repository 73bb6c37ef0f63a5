//! States made by hand and what docs/STATE.md demands of them: so a number can be set to the edge of its range or one past it.

use super::random::Random;
use crate::calls::STATE_NUMBERS;

/// The most bytes of a segment, 2^28.
pub const LIMIT: u64 = 268_435_456;

/// What docs/STATE.md demands of numbers of the state; a number is named by its place.
#[derive(Clone, Copy, Debug)]
pub enum Rule {
    AtMost {
        at: usize,
        most: u64,
    },
    AtLeast {
        at: usize,
        least: u64,
    },
    NotAbove {
        at: usize,
        other: usize,
    },
    Below {
        at: usize,
        other: usize,
    },
    SumFits {
        at: usize,
        other: usize,
    },
    /// A number that is being read.
    Spelled {
        more: usize,
        acc: usize,
        width: Width,
    },
    /// A sum of at most `each` for `beyond` entries more than the number at `next` says.
    Sum {
        at: usize,
        next: usize,
        beyond: u64,
        each: u64,
    },
    /// The tag of the indexes that are open, where another is being read.
    ThreeOpen {
        at: usize,
    },
}

/// How many bytes a number has: so many, or 8 where the flag at a place is set and 4 where it is not.
#[derive(Clone, Copy, Debug)]
pub enum Width {
    Bytes(u64),
    ByFlag(usize),
}

impl Width {
    pub fn bytes(self, numbers: &[u64]) -> u64 {
        match self {
            Width::Bytes(bytes) => bytes,
            Width::ByFlag(at) => 4 + 4 * numbers[at].min(1),
        }
    }
}

/// A state as numbers, with what docs/STATE.md demands of its case. An empty one has no case yet.
#[derive(Clone, Debug)]
pub struct Made {
    pub numbers: Vec<u64>,
    pub rules: Vec<Rule>,
    /// Places of tags, with how many tags there are.
    pub tags: Vec<(usize, u64)>,
    pub flags: Vec<usize>,
    pub used: Vec<bool>,
    /// For each index that is open, from the top: the places of its four numbers.
    pub levels: Vec<usize>,
}

/// A state that was made, and whether it is meant to be one: unknown where a tag was changed to another that there is.
#[derive(Clone, Debug)]
pub struct Meant {
    pub numbers: Vec<u64>,
    pub is_state: Option<bool>,
}

impl Made {
    pub fn empty() -> Made {
        let (numbers, used) = (vec![0; STATE_NUMBERS], vec![false; STATE_NUMBERS]);
        Made { numbers, rules: Vec::new(), tags: Vec::new(), flags: Vec::new(), used, levels: Vec::new() }
    }

    /// Whether the numbers keep what their case demands.
    pub fn is_state(&self) -> bool {
        let numbers = &self.numbers;
        numbers.len() == STATE_NUMBERS
            && self.rules.iter().all(|rule| rule.holds(numbers))
            && self.tags.iter().all(|(at, tags)| (1..=*tags).contains(&numbers[*at]))
            && self.flags.iter().all(|at| numbers[*at] <= 1)
            && (0..STATE_NUMBERS).all(|at| self.used[at] || numbers[at] == 0)
    }

    /// The state as it is.
    pub fn whole(&self) -> Meant {
        Meant { numbers: self.numbers.clone(), is_state: Some(self.is_state()) }
    }

    /// The state with a number at an edge of its range or one past it.
    pub fn at_edge(mut self, random: &mut Random) -> Meant {
        // The innermost numbers come last, and are those of one case alone.
        let last = self.rules.len().saturating_sub(random.pick(&[1, 3]));
        let rule = if random.chance(50) { random.pick(&self.rules[last..]) } else { random.pick(&self.rules) };
        rule.to_edge(&mut self.numbers, random);
        self.whole()
    }

    /// The state with a wrong tag, a flag above 1, something at an unused place, a number at random, or of another length.
    pub fn broken(mut self, random: &mut Random) -> Meant {
        let any = random.number();
        let mut known = true;
        match random.below(20) {
            0..=6 => {
                let (at, tags) = random.pick(&self.tags);
                self.numbers[at] = random.pick(&[0, tags + 1, tags + 1, tags + 1, (1 << 32) + 1, any.max(tags + 1)]);
            }
            7..=9 if !self.flags.is_empty() => self.numbers[random.pick(&self.flags)] = random.pick(&[2, 2, 256, u64::MAX]),
            10..=11 => {
                let at = random.index(STATE_NUMBERS);
                self.numbers[at] = random.pick(&[1, 2, any]);
                known = !self.tags.iter().any(|(tag, _)| *tag == at);
            }
            12..=14 => {
                let (at, tags) = random.pick(&self.tags);
                self.numbers[at] = random.within(1..=tags);
                known = false;
            }
            15..=18 => {
                let unused: Vec<usize> = (0..STATE_NUMBERS).filter(|at| !self.used[*at]).collect();
                if !unused.is_empty() {
                    self.numbers[random.pick(&unused)] = random.pick(&[1, any]);
                }
            }
            _ => self.numbers.resize(random.pick(&[0, 1, 56, 58, 64]), 0),
        }
        Meant { is_state: known.then(|| self.is_state()), numbers: self.numbers }
    }
}

impl Rule {
    fn holds(&self, numbers: &[u64]) -> bool {
        match *self {
            Rule::AtMost { at, most } => numbers[at] <= most,
            Rule::AtLeast { at, least } => numbers[at] >= least,
            Rule::NotAbove { at, other } => numbers[at] <= numbers[other],
            Rule::Below { at, other } => numbers[at] < numbers[other],
            Rule::SumFits { at, other } => numbers[at].checked_add(numbers[other]).is_some(),
            Rule::Spelled { more, acc, width } => {
                let width = width.bytes(numbers);
                numbers[more] < width && numbers[acc] < spelled_below(width, numbers[more])
            }
            Rule::Sum { at, next, beyond, each } => {
                u128::from(numbers[at]) <= u128::from(each) * (u128::from(numbers[next]) + u128::from(beyond))
            }
            Rule::ThreeOpen { at } => numbers[at] <= 3,
        }
    }

    /// Sets a number so that the rule is just kept or just broken.
    fn to_edge(self, numbers: &mut [u64], random: &mut Random) {
        let past = random.below(2);
        match self {
            Rule::AtMost { at, most } => numbers[at] = most.saturating_add(past),
            Rule::AtLeast { at, least } => numbers[at] = least.saturating_sub(past),
            Rule::NotAbove { at, other } => pair_to_edge(numbers, at, other, past, random),
            Rule::Below { at, other } => pair_to_edge(numbers, at, other, past.wrapping_sub(1), random),
            Rule::SumFits { at, other } => {
                numbers[at] = numbers[at].max(past);
                numbers[other] = (u64::MAX - numbers[at]) + past;
            }
            Rule::Spelled { more, acc, width } => match random.below(3) {
                0 => (numbers[more], numbers[acc]) = (width.bytes(numbers) - 1 + past, 0),
                _ => numbers[acc] = spelled_below(width.bytes(numbers), numbers[more]) - 1 + past,
            },
            Rule::Sum { at, next, beyond, each } => {
                numbers[at] = numbers[next].saturating_add(beyond).saturating_mul(each).saturating_add(past);
            }
            Rule::ThreeOpen { at } => numbers[at] = 4,
        }
    }
}

/// Sets the one number to the other plus `past`, or the other to the one less `past`.
fn pair_to_edge(numbers: &mut [u64], at: usize, other: usize, past: u64, random: &mut Random) {
    if random.chance(50) {
        numbers[at] = numbers[other].wrapping_add(past);
    } else {
        numbers[other] = numbers[at].wrapping_sub(past);
    }
}

/// What the bytes before the next one of a number spell less than.
pub fn spelled_below(width: u64, more: u64) -> u64 {
    1 << (8 * (width - 1 - more.min(width - 1)))
}
