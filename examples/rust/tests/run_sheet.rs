//! The programs as a user runs them: accepted and refused sheets, files that cannot be read, outputs that cannot be written.

use std::fs::File;
use std::path::PathBuf;
use std::process::{Command, Output, Stdio};

const RUN: &str = env!("CARGO_BIN_EXE_run-sheet");
const COMPOSE: &str = env!("CARGO_BIN_EXE_compose-sheet");

fn worked(name: &str) -> PathBuf {
    PathBuf::from(env!("CARGO_MANIFEST_DIR")).join("../worked").join(name)
}

fn run(name: &str) -> Output {
    Command::new(RUN).arg(worked(name)).output().unwrap()
}

/// Both programs on sheet A, each as a shell's words.
fn both() -> [String; 2] {
    [format!("'{RUN}' '{}'", worked("sheet-a.sheet").display()), format!("'{COMPOSE}'")]
}

/// What a program says on standard error and its status, with an output that the shell arranges.
fn said(program: &str, output: &str) -> (String, Option<i32>) {
    let done =
        Command::new("sh").arg("-c").arg(format!("exec {program} {output}")).output().unwrap();
    (String::from_utf8(done.stderr).unwrap(), done.status.code())
}

#[test]
fn an_accepted_sheet_prints_its_report() {
    let output = run("sheet-a.sheet");
    assert_eq!(output.stdout, std::fs::read(worked("sheet-a.report")).unwrap());
    assert_eq!((output.status.code(), output.stderr.len()), (Some(0), 0));
}

#[test]
fn a_refused_sheet_is_explained() {
    let output = run("row-6.sheet");
    let message = String::from_utf8(output.stderr).unwrap();
    let reason = "refused as 6 at 1: an operand is out of range or names something not declared";
    assert_eq!(message, format!("{}: {reason}\n", worked("row-6.sheet").display()));
    assert_eq!((output.status.code(), output.stdout.len()), (Some(1), 0));
}

#[test]
fn a_file_that_cannot_be_read_is_explained() {
    for (name, reason) in [("no-such.sheet", "No such file"), ("", "Is a directory")] {
        let output = run(name);
        assert!(String::from_utf8(output.stderr).unwrap().contains(reason), "{name}");
        assert_eq!((output.status.code(), output.stdout.len()), (Some(2), 0), "{name}");
    }
}

#[test]
fn wrong_usage_is_told() {
    for words in [&[][..], &["a", "b"]] {
        let output = Command::new(RUN).args(words).output().unwrap();
        assert_eq!(String::from_utf8(output.stderr).unwrap(), "usage: run-sheet FILE\n");
        assert_eq!((output.status.code(), output.stdout.len()), (Some(2), 0));
    }
}

#[test]
fn sheet_a_is_composed_and_run() {
    let output = Command::new(COMPOSE).output().unwrap();
    assert_eq!(output.stdout, std::fs::read(worked("sheet-a.report")).unwrap());
    assert_eq!((output.status.code(), output.stderr.len()), (Some(0), 0));
}

#[test]
fn an_output_that_cannot_be_written_is_told() {
    for program in both() {
        for (output, reason) in [
            (">&-", "it is closed"),
            (">/dev/full", "No space left on device (os error 28)"),
            ("1</dev/null", "Bad file descriptor (os error 9)"),
        ] {
            let expected = (format!("standard output: {reason}\n"), Some(2));
            assert_eq!(said(&program, output), expected, "{program} {output}");
        }
    }
}

#[test]
fn an_output_thrown_away_is_no_failure() {
    for program in both() {
        for output in [">/dev/null", "1<>/dev/null"] {
            assert_eq!(said(&program, output), (String::new(), Some(0)), "{program} {output}");
        }
    }
}

#[test]
fn a_broken_pipe_is_told() {
    for program in both() {
        let (reader, writer) = std::io::pipe().unwrap();
        drop(reader);
        let done = Command::new("sh")
            .arg("-c")
            .arg(format!("exec {program}"))
            .stdout(writer)
            .output()
            .unwrap();
        let message = String::from_utf8(done.stderr).unwrap();
        assert_eq!(message, "standard output: Broken pipe (os error 32)\n", "{program}");
        assert_eq!(done.status.code(), Some(2), "{program}");
    }
}

#[test]
fn a_message_that_cannot_be_written_changes_no_status() {
    let full = File::options().write(true).open("/dev/full").unwrap();
    let status = Command::new(RUN)
        .arg(worked("row-6.sheet"))
        .stderr(full)
        .stdout(Stdio::null())
        .status()
        .unwrap();
    assert_eq!(status.code(), Some(1));
}
