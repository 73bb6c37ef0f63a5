//! The calls that the proved program `batch` is run on in its crate: what it must write there is what the peer says.

use peer::calls::{Call, Source};
use peer::compare::stand_in::StandIn;
use std::path::Path;

#[test]
fn the_expected_answers_of_batch_are_the_peers() {
    let folder = Path::new(env!("CARGO_MANIFEST_DIR")).join("../crates/batch");
    let calls = std::fs::read(folder.join("stdin")).expect("the calls can be read");
    let expected = std::fs::read(folder.join("stdout")).expect("the answers can be read");
    let (mut source, mut stand_in, mut answers) = (Source::new(&calls), StandIn::default(), Vec::new());
    while !source.is_empty() {
        let call = Call::read(&mut source).expect("a command of the form of docs/BATCH.md");
        if let Some(answer) = stand_in.answer(&call) {
            answer.write(&mut answers);
        }
    }
    assert!(answers == expected);
}
