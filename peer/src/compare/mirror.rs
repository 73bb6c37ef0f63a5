//! What is lent, followed through calls and answers: so the end of a long sequence can be made again without its beginning.

use super::sessions::WORK;
use crate::calls::{Answer, Call, Run, STATE_NUMBERS};

/// The state, the work area and the leaf table as they are before the last call.
pub struct Mirror {
    state: Vec<u64>,
    work: Vec<u8>,
    table: Vec<u64>,
    last: Option<(Call, Option<Answer>)>,
}

impl Default for Mirror {
    fn default() -> Mirror {
        Mirror { state: vec![0; STATE_NUMBERS], work: vec![0; WORK], table: Vec::new(), last: None }
    }
}

impl Mirror {
    /// Takes the next call with its answer.
    pub fn see(&mut self, call: &Call, answer: Option<&Answer>) {
        if let Some((before, answer)) = self.last.take() {
            self.apply(before, answer);
        }
        self.last = Some((call.clone(), answer.cloned()));
    }

    /// The state, the work area and the leaf table as they are after the last call.
    pub fn now(&mut self) -> (&[u64], &[u8], &[u64]) {
        if let Some((call, answer)) = self.last.take() {
            self.apply(call, answer);
        }
        (&self.state, &self.work, &self.table)
    }

    fn apply(&mut self, call: Call, answer: Option<Answer>) {
        match call {
            Call::LendState(numbers) => self.state = numbers,
            Call::LendWork { bytes, each } => self.work = vec![each; bytes],
            Call::LendTable { numbers, each } => self.table = vec![each; numbers],
            Call::WriteWork { at, bytes } => overwrite(&mut self.work, at, &bytes),
            Call::WriteTable { at, numbers } => overwrite(&mut self.table, at, &numbers),
            _ => (),
        }
        if let Some(answer) = answer {
            self.state = answer.state;
            put_runs(&mut self.work, &answer.work);
            put_runs(&mut self.table, &answer.table);
        }
    }

    /// Calls that lend all this at once, and then make the last call.
    pub fn calls(self) -> Vec<Call> {
        let mut calls = vec![
            Call::LendState(self.state),
            Call::LendWork { bytes: self.work.len(), each: 0 },
            Call::LendTable { numbers: self.table.len(), each: 0 },
        ];
        if let Some(last) = self.work.iter().rposition(|byte| *byte != 0) {
            calls.push(Call::WriteWork { at: 0, bytes: self.work[..=last].to_vec() });
        }
        if let Some(last) = self.table.iter().rposition(|number| *number != 0) {
            calls.push(Call::WriteTable { at: 0, numbers: self.table[..=last].to_vec() });
        }
        calls.extend(self.last.map(|(call, _)| call));
        calls
    }
}

fn put_runs<T: Clone>(into: &mut [T], runs: &[Run<T>]) {
    for run in runs {
        overwrite(into, run.at, &run.now);
    }
}

/// Writes what lies inside; an answer that is wrong may not.
fn overwrite<T: Clone>(into: &mut [T], at: usize, items: &[T]) {
    for (place, item) in into.iter_mut().skip(at).zip(items) {
        *place = item.clone();
    }
}

#[cfg(test)]
mod tests {
    use super::*;
    use crate::calls::SAID;
    use crate::time::Request;

    #[test]
    fn what_was_lent_and_changed_is_lent_again() {
        let mut mirror = Mirror::default();
        mirror.see(&Call::LendTable { numbers: 2, each: 5 }, None);
        let run = Run { at: 1, now: vec![8] };
        let answer = Answer { said: [0; SAID], state: vec![1, 2], work: vec![Run { at: 0, now: vec![3] }], table: vec![run] };
        mirror.see(&Call::Finish, Some(&answer));
        mirror.see(&Call::Lookup(Request::Ticks(4)), None);
        let expected = vec![
            Call::LendState(vec![1, 2]),
            Call::LendWork { bytes: WORK, each: 0 },
            Call::LendTable { numbers: 2, each: 0 },
            Call::WriteWork { at: 0, bytes: vec![3] },
            Call::WriteTable { at: 0, numbers: vec![5, 8] },
            Call::Lookup(Request::Ticks(4)),
        ];
        assert_eq!(mirror.calls(), expected);
    }
}
