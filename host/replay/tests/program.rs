//! The program itself: standard input, a named file, a file that isn't there.

use std::io::Write;
use std::process::{Command, Output, Stdio};

const PROGRAM: &str = env!("CARGO_BIN_EXE_paper-replay");
const PASS: &[u8] = b"F\0\0\0\0C\0\0\0\x04\0\0\0\x07X";
const LINES: &[u8] = b"1 fresh\n2 refused 12 code=6\n3 cut short\n";

fn run(arguments: &[&str], input: &[u8]) -> Output {
    let mut program = Command::new(PROGRAM)
        .args(arguments)
        .stdin(Stdio::piped())
        .stdout(Stdio::piped())
        .stderr(Stdio::piped())
        .spawn()
        .unwrap();
    program.stdin.take().unwrap().write_all(input).unwrap();
    program.wait_with_output().unwrap()
}

#[test]
fn standard_input() {
    let output = run(&[], PASS);
    assert_eq!(output.stdout, LINES);
    assert!(output.status.success() && output.stderr.is_empty());
}

#[test]
fn named_file() {
    let file = format!("{}/named_file.pass", env!("CARGO_TARGET_TMPDIR"));
    std::fs::write(&file, PASS).unwrap();
    let output = run(&[&file], b"");
    assert_eq!(output.stdout, LINES);
    assert!(output.status.success() && output.stderr.is_empty());
}

#[test]
fn missing_file() {
    let output = run(&[concat!(env!("CARGO_TARGET_TMPDIR"), "/no.pass")], b"");
    assert!(output.stdout.is_empty());
    assert!(!output.status.success() && !output.stderr.is_empty());
}
