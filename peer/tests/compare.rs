//! The program `compare` with the peer as the program under test, as it is and with faults planted.

use std::fs;
use std::path::PathBuf;
use std::process::{Command, Output};

/// Runs `compare` in a folder of its own.
fn compare(name: &str, arguments: &[&str], fault: &str) -> (PathBuf, Output) {
    let folder = std::env::temp_dir().join(format!("compare-{}-{name}", std::process::id()));
    fs::create_dir_all(&folder).expect("the folder can be made");
    let mut command = Command::new(env!("CARGO_BIN_EXE_compare"));
    command.args(arguments).args(["--", env!("CARGO_BIN_EXE_peer_batch"), fault]).current_dir(&folder);
    (folder, command.output().expect("it can be run"))
}

fn told(output: &Output) -> String {
    String::from_utf8_lossy(&output.stdout).into_owned()
}

#[test]
fn the_peer_agrees_with_itself() {
    let (folder, output) = compare("agrees", &["--calls", "60000", "--seed", "5"], "0");
    assert!(output.status.success(), "{}", told(&output));
    assert!(told(&output).ends_with("seed 5: no difference\n"));
    fs::remove_dir_all(folder).expect("the folder can be removed");
}

#[test]
fn planted_faults_are_found_and_made_short() {
    // Fault 10 is a program that says nothing, which takes long to find.
    for fault in (1..=14).filter(|fault| *fault != 10) {
        let fault = fault.to_string();
        let (folder, output) = compare(&fault, &["--calls", "60000", "--seed", "6"], &fault);
        assert_eq!(output.status.code(), Some(1), "fault {fault}: {}", told(&output));
        let files: Vec<PathBuf> = fs::read_dir(&folder).expect("the folder is there").map(|file| file.expect("a file").path()).collect();
        assert_eq!(files.len(), 1, "fault {fault}: {}", told(&output));
        let name = files[0].to_string_lossy().into_owned();
        let (again, output) = compare(&format!("{fault}-again"), &["--replay", &name], &fault);
        assert_eq!(output.status.code(), Some(1), "fault {fault} again: {}", told(&output));
        assert!(told(&output).contains("difference at call"));
        let (right, output) = compare(&format!("{fault}-right"), &["--replay", &name], "0");
        assert!(output.status.success(), "without fault {fault}: {}", told(&output));
        for folder in [folder, again, right] {
            fs::remove_dir_all(folder).expect("the folder can be removed");
        }
    }
}

#[test]
fn a_program_that_cannot_be_started_is_told_of() {
    let output =
        Command::new(env!("CARGO_BIN_EXE_compare")).args(["--calls", "10", "--", "/no/such/program"]).output().expect("it can be run");
    assert_eq!(output.status.code(), Some(1));
    assert!(!output.stderr.is_empty());
}
