//! check, run and explain as a user runs them, on every stored example.
#![cfg(feature = "proved")]

mod common;

use common::{failure, note, printed, report, run, said, status, stored};
use tools::examples::names;

/// A good sheet's report is the stored one. Another is refused with the number and place of its report.
#[test]
fn every_stored_example_is_run() {
    let (mut accepted, mut refused) = (0, 0);
    for name in names().unwrap() {
        let Some(report) = report(&name) else { continue };
        for file in [format!("{name}.txt"), format!("{name}.sheet")] {
            let output = run(&["run", &file], b"");
            if !report.starts_with('X') {
                accepted += 1;
                assert_eq!((status(&output), said(&output)), (0, note()), "{file}");
                assert_eq!(printed(&output), report, "{file}");
                continue;
            }
            refused += 1;
            assert_eq!((status(&output), output.stdout.len()), (1, 0), "{file}");
            // In a text there is a line as well.
            let end = if file.ends_with(".txt") { ", " } else { ": " };
            let start = format!("{file}: {}{end}", report.trim_end());
            assert!(said(&output).starts_with(&start), "{file}: {}", said(&output));
            assert!(said(&output).ends_with(&format!("\n{}", note())), "{file}");
        }
    }
    assert!(accepted > 40 && refused > 20, "{accepted}, {refused}");
}

/// Every subcommand gives the same for a sheet as text, as bytes, and from standard input, but for names.
#[test]
fn text_bytes_and_standard_input_give_the_same() {
    for name in ["worked/p5", "worked/sheet-a", "worked/row-6"] {
        let (text, bytes) = (stored(name, "txt"), stored(name, "sheet"));
        for subcommand in common::SUBCOMMANDS {
            let of = |file: &str, input: &[u8]| {
                let title = ["chart", "--title", "same"];
                let arguments = match subcommand {
                    "chart" => [&title[..], &[file]].concat(),
                    _ => vec![subcommand, file],
                };
                let output = run(&arguments, input);
                (output.status.code(), output.stdout)
            };
            let expected = of(&format!("{name}.txt"), b"");
            assert!(expected == of(&format!("{name}.sheet"), b""), "{subcommand} {name}");
            assert!(expected == of("-", &text), "{subcommand} {name}");
            assert!(expected == of("-", &bytes), "{subcommand} {name}");
        }
    }
}

#[test]
fn check_says_what_the_sheet_has() {
    let output = run(&["check", "worked/sheet-a.txt"], b"");
    assert_eq!((status(&output), said(&output)), (0, note()));
    let line = "accepted: 29 bytes, 1 word, 0 blocks, 1 task, 4 commands in tasks, 1 release\n";
    assert_eq!(printed(&output), line);
    let quiet = run(&["check", "--quiet", "worked/sheet-a.sheet"], b"");
    assert_eq!(
        (status(&quiet), said(&quiet), printed(&quiet)),
        (0, String::new(), line.to_string())
    );
}

#[test]
fn a_refusal_has_number_place_line_and_reason() {
    let text = b"TASK\n\n# a comment\n  ADD r8 r0";
    let refusal = "X 6 1, line 4: r8 is no register, they are r0 to r7\n";
    for subcommand in ["check", "run"] {
        let expected = format!("standard input: {refusal}{}", note());
        assert_eq!(failure(&[subcommand, "-"], text), (1, expected));
        let quiet = failure(&[subcommand, "-q", "-"], text);
        assert_eq!(quiet, (1, format!("standard input: {refusal}")));
    }
    let meaning = "number 6: an operand is out of range or names something not declared\n";
    let expected = format!("standard input: {refusal}{meaning}{}", note());
    assert_eq!(failure(&["explain", "-"], text), (1, expected));
    for subcommand in ["chart", "history", "build"] {
        let expected = format!("standard input: {refusal}");
        assert_eq!(failure(&[subcommand, "-"], text), (1, expected));
        let expected = "standard input: X 6 1: r8 is no register, they are r0 to r7\n".to_string();
        assert_eq!(failure(&[subcommand, "-"], &[3, 0x11, 8, 0]), (1, expected));
    }
    let missing = failure(&["run", "-q", "-"], b"TASK\nADD r0 r0\n");
    let reason = "X 2 4, after the last line: the sheet ends before END";
    assert_eq!(missing, (1, format!("standard input: {reason}\n")));
}

/// The limit ends the run; one above the top is refused, after the sheet's own faults.
#[test]
fn limits() {
    let three = run(&["run", "--limit", "3", "worked/sheet-a.txt"], b"");
    assert_eq!(printed(&three), "W 0 12\nT 0 0 0 0 3 0\nR 0 0 12 5 0 0 0 0 0\nE 3\n");
    let none = run(&["run", "--limit=0", "worked/sheet-a.txt"], b"");
    assert_eq!(printed(&none), "W 0 12\nT 0 0 0 0 0 0\nR 0 0 0 0 0 0 0 0 0\nE 0\n");
    let top = run(&["run", "--limit", "65535", "worked/sheet-a.txt"], b"");
    assert_eq!(printed(&top), report("worked/sheet-a").unwrap());
    for limit in ["65536", "18446744073709551616"] {
        let reason = format!("the limit {limit} is above 65535");
        for subcommand in ["check", "run", "chart", "history", "build"] {
            let (status, said) =
                failure(&[subcommand, "-q", "--limit", limit, "worked/p5.txt"], b"");
            assert_eq!((status, said), (1, format!("worked/p5.txt: X 9 0: {reason}\n")));
        }
        let (status, said) = failure(&["run", "-q", "--limit", limit, "worked/row-6.sheet"], b"");
        assert_eq!(status, 1);
        assert!(said.starts_with("worked/row-6.sheet: X 6 1: "), "{said}");
    }
}

/// What explain says of each line is a matter of the tools; here: every line of the report is there.
#[test]
fn explain_has_the_whole_report() {
    let output = run(&["explain", "cold-room.txt"], b"");
    assert_eq!((status(&output), said(&output)), (0, note()));
    let report = printed(&run(&["run", "cold-room.txt"], b""));
    let explained = printed(&output);
    let mut rest = explained.as_str();
    for line in report.lines() {
        let found = rest.find(line).unwrap_or_else(|| panic!("{line} is not in\n{rest}"));
        rest = &rest[found + line.len()..];
    }
    assert!(explained.len() > 3 * report.len());
}
