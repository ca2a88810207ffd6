//! What the tests share: the program as a user runs it.
#![allow(dead_code)]

use std::fs;
use std::io::Write;
use std::path::PathBuf;
use std::process::{Command, Output, Stdio};

use tools::examples::folder;

pub const PROGRAM: &str = env!("CARGO_BIN_EXE_hizgrael");

pub const SUBCOMMANDS: [&str; 8] =
    ["check", "run", "explain", "chart", "history", "encode", "decode", "build"];

/// What check, run and explain say on standard error.
pub fn note() -> String {
    format!("answered by the proved engine, hizgrael {}\n", hizgrael_cli::VERSION)
}

/// Runs the program in examples/, with this on standard input.
pub fn run(arguments: &[&str], input: &[u8]) -> Output {
    let mut child = Command::new(PROGRAM)
        .args(arguments)
        .current_dir(folder())
        .stdin(Stdio::piped())
        .stdout(Stdio::piped())
        .stderr(Stdio::piped())
        .spawn()
        .unwrap();
    // A program that refuses its arguments may be gone before it reads.
    let _ = child.stdin.take().unwrap().write_all(input);
    child.wait_with_output().unwrap()
}

pub fn status(output: &Output) -> i32 {
    output.status.code().unwrap()
}

pub fn said(output: &Output) -> String {
    String::from_utf8(output.stderr.clone()).unwrap()
}

pub fn printed(output: &Output) -> String {
    String::from_utf8(output.stdout.clone()).unwrap()
}

/// Status and message of a run that prints nothing.
pub fn failure(arguments: &[&str], input: &[u8]) -> (i32, String) {
    let output = run(arguments, input);
    assert_eq!(output.stdout, [], "{arguments:?}");
    (status(&output), said(&output))
}

/// A stored file of an example.
pub fn stored(name: &str, extension: &str) -> Vec<u8> {
    fs::read(folder().join(format!("{name}.{extension}"))).unwrap()
}

/// The stored report, if the example has one.
pub fn report(name: &str) -> Option<String> {
    fs::read_to_string(folder().join(format!("{name}.report"))).ok()
}

/// An empty folder of this test's own.
pub fn own_folder(name: &str) -> PathBuf {
    let folder = std::env::temp_dir().join(format!("hizgrael-{}-{name}", std::process::id()));
    let _ = fs::remove_dir_all(&folder);
    fs::create_dir(&folder).unwrap();
    folder
}
