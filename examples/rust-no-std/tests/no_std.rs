//! The program prints sheet A's report, tells a full disk by its status, and has nothing of Rust's standard library in it.

use std::fs::{read, File};
use std::path::PathBuf;
use std::process::Command;

const PROGRAM: &str = env!("CARGO_BIN_EXE_no-std");

#[test]
fn sheet_a_is_composed_and_run() {
    let stored = PathBuf::from(env!("CARGO_MANIFEST_DIR")).join("../worked/sheet-a.report");
    let output = Command::new(PROGRAM).output().unwrap();
    assert_eq!(output.stdout, read(stored).unwrap());
    assert_eq!(output.status.code(), Some(0));
}

#[test]
fn a_full_disk_is_status_2() {
    let full = File::options().write(true).open("/dev/full").unwrap();
    assert_eq!(Command::new(PROGRAM).stdout(full).status().unwrap().code(), Some(2));
}

#[test]
fn it_has_no_symbol_of_std_or_alloc() {
    let output = Command::new("nm").arg(PROGRAM).output().expect("nm, of the package binutils");
    let symbols = String::from_utf8(output.stdout).unwrap();
    assert!(symbols.contains(" hizgrael_run\n"), "nm has shown no symbols");
    // Both ways in which rustc writes the crate of a symbol.
    let of_std = |name: &&str| {
        ["_ZN3std", "_ZN5alloc", "_3std", "_5alloc", "__rust_alloc"]
            .iter()
            .any(|part| name.contains(part))
    };
    assert_eq!(symbols.lines().find(of_std), None);
}
