//! The program: what it prints and its exit status.

mod common;

use std::fs;
use std::path::PathBuf;
use std::process::{Command, Output};

use common::{id, message, name, A};

fn run(arguments: &[&str]) -> Output {
    Command::new(env!("CARGO_BIN_EXE_reference")).args(arguments).output().unwrap()
}

fn recording(name: &str, bytes: &[u8]) -> PathBuf {
    let path = PathBuf::from(env!("CARGO_TARGET_TMPDIR")).join(name);
    fs::write(&path, bytes).unwrap();
    path
}

/// Standard output, exit status, and that nothing is on standard error.
fn listed(name: &str, bytes: &[u8]) -> (String, Option<i32>) {
    let path = recording(name, bytes);
    let output = run(&["list", path.to_str().unwrap()]);
    assert!(output.stderr.is_empty());
    (String::from_utf8(output.stdout).unwrap(), output.status.code())
}

/// Checks for one line on standard error, nothing on standard output and exit status 2.
fn faulty(arguments: &[&str]) {
    let output = run(arguments);
    assert_eq!(output.status.code(), Some(2), "{arguments:?}");
    assert!(output.stdout.is_empty());
    let line = String::from_utf8(output.stderr).unwrap();
    assert!(line.starts_with("reference: ") && line.ends_with('\n'), "{line}");
    assert_eq!(line.lines().count(), 1, "{line}");
}

#[test]
fn a_whole_recording_is_0_and_a_refused_one_1() {
    let mut bytes = A.to_vec();
    bytes.extend(message(2, &[name(), id(7)]));
    let whole = ("0 1 33\n33 2 28\nend 61\n".to_string(), Some(0));
    assert_eq!(listed("whole", &bytes), whole);
    bytes.push(0);
    let refused = ("0 1 33\n33 2 28\n61 refused 1\n".to_string(), Some(1));
    assert_eq!(listed("refused", &bytes), refused);
    assert_eq!(listed("empty", &[]), ("end 0\n".to_string(), Some(0)));
}

#[test]
fn faulty_arguments_and_files_are_2() {
    faulty(&[]);
    faulty(&["list"]);
    faulty(&["list", "one", "two"]);
    faulty(&["unknown"]);
    faulty(&["list", "/no/such/file"]);
    faulty(&["list", env!("CARGO_TARGET_TMPDIR")]);
}
