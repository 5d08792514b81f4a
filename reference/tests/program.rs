//! The program `list`: input, output, arguments, exit status.

mod common;

use common::records;
use std::io::Write;
use std::process::{Command, Output, Stdio};

fn run(arguments: &[&str], pieces: &[&[u8]]) -> Output {
    let mut child = Command::new(env!("CARGO_BIN_EXE_list"))
        .args(arguments)
        .stdin(Stdio::piped())
        .stdout(Stdio::piped())
        .stderr(Stdio::piped())
        .spawn()
        .expect("the program starts");
    let mut input = child.stdin.take().expect("standard input");
    for piece in pieces {
        // The program may have stopped reading.
        let _ = input.write_all(piece);
        let _ = input.flush();
    }
    drop(input);
    child.wait_with_output().expect("the program ends")
}

fn assert_prints(output: &Output, text: &str) {
    assert_eq!(String::from_utf8_lossy(&output.stdout), text);
    assert_eq!(output.status.code(), Some(0));
    assert!(output.stderr.is_empty());
}

const EXPECTED: &str = "sleeves 4 links 3\npair 0 2\npair 1 3\nverdict F\n";

#[test]
fn prints_the_listing() {
    let bytes = records(4, 0, &[(0, 1), (0, 2), (1, 3)]);
    assert_prints(&run(&[], &[&bytes]), EXPECTED);
    assert_prints(&run(&["list"], &[&bytes]), EXPECTED);
}

#[test]
fn reads_input_that_comes_in_pieces() {
    let bytes = records(4, 0, &[(0, 1), (0, 2), (1, 3)]);
    let pieces: Vec<&[u8]> = bytes.chunks(1).collect();
    assert_prints(&run(&[], &pieces), EXPECTED);
}

#[test]
fn a_refusal_is_a_listing() {
    assert_prints(&run(&[], &[]), "refused 13 at 0\n");
    assert_prints(&run(&["list"], &[&[1, 97]]), "refused 1 at 0\n");
}

#[test]
fn input_past_the_limit_is_not_needed() {
    let mut bytes = records(2, 0, &[(0, 1)]);
    bytes.resize(40_000, 4);
    assert_prints(&run(&[], &[&bytes]), "refused 12 at 11\n");
}

#[test]
fn other_arguments_are_refused() {
    for arguments in [&["print"][..], &["list", "list"], &[""], &["--help"]] {
        let output = run(arguments, &[]);
        assert_eq!(output.status.code(), Some(2));
        assert!(output.stdout.is_empty());
        assert!(!output.stderr.is_empty());
    }
}
