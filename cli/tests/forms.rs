//! encode, decode and build as a user runs them: bytes, texts, refusals, and texts that cannot be read.
#![cfg(feature = "proved")]

mod common;

use common::{failure, own_folder, printed, report, run, said, status, stored};
use tools::examples::names;

/// What is refused is written all the same, and the refusal is told.
#[test]
fn every_stored_example_there_and_back() {
    for name in names().unwrap() {
        let (text, sheet) = (format!("{name}.txt"), stored(&name, "sheet"));
        let encoded = run(&["encode", &text], b"");
        assert!(encoded.stdout == sheet, "{name}");
        let refused = report(&name).filter(|report| report.starts_with('X'));
        match &refused {
            None => assert_eq!((status(&encoded), said(&encoded)), (0, String::new()), "{name}"),
            Some(report) => {
                let start = format!("{text}: {}, ", report.trim_end());
                assert!(said(&encoded).starts_with(&start), "{name}: {}", said(&encoded));
            }
        }
        for form in ["txt", "sheet"] {
            let decoded = run(&["decode", &format!("{name}.{form}")], b"");
            assert_eq!(status(&decoded), i32::from(refused.is_some()), "{name}");
            let again = run(&["encode", "--text", "-"], &decoded.stdout);
            assert!(again.stdout == sheet, "{name}");
        }
    }
}

#[test]
fn encode_and_decode() {
    let encoded = run(&["encode", "-"], b"TASK\n  LOAD r0 5 # five\nEND\n");
    assert_eq!((status(&encoded), said(&encoded)), (0, String::new()));
    assert_eq!(encoded.stdout, [3, 0x10, 0, 0, 0, 0, 5, 5]);
    let decoded = run(&["decode", "-"], &encoded.stdout);
    assert_eq!((status(&decoded), said(&decoded)), (0, String::new()));
    let expected = "TASK                      # task t0\n  LOAD r0 5\nEND\n# check: accepted\n";
    assert_eq!(printed(&decoded), expected);
    assert_eq!(run(&["encode", "-"], &encoded.stdout).stdout, encoded.stdout);
}

#[test]
fn encode_writes_the_bytes_of_a_refused_sheet() {
    let refused = run(&["encode", "-"], b"# a sheet\nEND");
    assert_eq!(refused.stdout, [5]);
    let answer = "standard input: X 4 0, line 2: a sheet has at least one TASK\n";
    assert_eq!((status(&refused), said(&refused)), (1, answer.to_string()));
    let above = run(&["encode", "--limit", "65536", "-"], b"TASK\nADD r0 r0\nEND");
    assert_eq!((status(&above), above.stdout.len()), (1, 5));
    assert_eq!(said(&above), "standard input: X 9 0: the limit 65536 is above 65535\n");
}

/// Bytes that are no commands become a text too; the message has the place in the input.
#[test]
fn decode_writes_the_text_of_a_refused_sheet() {
    let refused = run(&["decode", "-"], &[3, 0xFF]);
    assert_eq!(status(&refused), 1);
    assert_eq!(said(&refused), "standard input: X 1 1: the byte FF names no command\n");
    assert!(printed(&refused).contains("\nBYTE 255"), "{}", printed(&refused));
    assert_eq!(run(&["encode", "-"], &refused.stdout).stdout, [3, 0xFF]);
}

/// Names of a text stay in the text that decode writes.
#[test]
fn names_are_kept() {
    let text = b"WORD 12 setpoint\nTASK guard\n  READ r1 setpoint\nRELEASE 0 guard\nEND\n";
    let decoded = run(&["decode", "-"], text);
    assert_eq!(status(&decoded), 0);
    for part in ["WORD 12 setpoint", "TASK guard", "READ r1 setpoint", "RELEASE 0 guard"] {
        assert!(printed(&decoded).contains(part), "{}", printed(&decoded));
    }
    let bytes = [1, 0, 0, 0, 12, 3, 0x12, 1, 0, 4, 0, 0, 0, 5];
    for subcommand in ["encode", "build"] {
        assert_eq!(run(&[subcommand, "-"], text).stdout, bytes);
        assert_eq!(run(&[subcommand, "-"], &decoded.stdout).stdout, bytes);
    }
}

#[test]
fn texts_that_cannot_be_read_are_not_done_by_any_subcommand() {
    for subcommand in common::SUBCOMMANDS {
        let expected =
            "standard input: line 2: 'WARD' is no command; did you mean WORD?\n".to_string();
        assert_eq!(failure(&[subcommand, "-"], b"WORD 1\nWARD 2"), (2, expected));
        let expected = "standard input: line 2: the line is no UTF-8 text\n".to_string();
        assert_eq!(failure(&[subcommand, "-"], b"WORD 1\n\xFF"), (2, expected));
    }
}

/// A good sheet is composed as it is stored. Another one stops with the number and place of its report, but
/// for the two with a cut command, which are bare bytes in the text.
#[test]
fn every_stored_example_is_built() {
    let mut by_status = [0; 3];
    for name in names().unwrap() {
        let (text, sheet) = (format!("{name}.txt"), stored(&name, "sheet"));
        let output = run(&["build", &text], b"");
        by_status[status(&output) as usize] += 1;
        let of_bytes = run(&["build", &format!("{name}.sheet")], b"");
        let Some(report) = report(&name).filter(|report| report.starts_with('X')) else {
            assert_eq!((status(&output), said(&output)), (0, String::new()), "{name}");
            assert!(output.stdout == sheet && of_bytes.stdout == sheet, "{name}");
            continue;
        };
        let report = report.trim_end();
        assert_eq!((output.stdout.len(), of_bytes.stdout.len()), (0, 0), "{name}");
        assert_eq!(status(&of_bytes), 1, "{name}");
        let start = format!("{name}.sheet: {report}: ");
        assert!(said(&of_bytes).starts_with(&start), "{name}: {}", said(&of_bytes));
        let cut = report.starts_with("X 2") && report != format!("X 2 {}", sheet.len());
        assert_eq!(status(&output), if cut { 2 } else { 1 }, "{name}");
        if !cut {
            let start = format!("{text}: {report}, ");
            assert!(said(&output).starts_with(&start), "{name}: {}", said(&output));
        }
    }
    assert!(by_status[0] > 20 && by_status[1] > 10, "{by_status:?}");
    assert_eq!(by_status[2], 2);
}

fn built(text: &str) -> (i32, String) {
    failure(&["build", "-"], text.as_bytes())
}

fn told(message: &str) -> String {
    format!("standard input: {message}\n")
}

#[test]
fn refusals_of_the_builder_have_their_line_and_reason() {
    let cases = [
        ("TASK\n\n# a comment\n  ADD r8 r0", "X 6 1, line 4: r8 is no register, they are r0 to r7"),
        ("WORD 1\nBYTE 255", "X 1 5, line 2: the byte FF names no command"),
        ("TASK\nADD r0 r0\nEND\nEND", "X 3 5, line 4: a byte follows END"),
        ("TASK\nADD r0 r0\nEND\nBYTE 1", "X 3 5, line 4: a byte follows END"),
        ("END", "X 4 0, line 1: a sheet has at least one TASK"),
        (
            "WORD 0\nTASK\nPAIR w0 r0 r1\nPAIR w0 r2 r3",
            "X 7 10, line 4: w0 is already in the waiting PAIRs",
        ),
        (
            "TASK\nADD r0 r0\nRELEASE 2 t0\nRELEASE 1 t0\nEND",
            "X 8 8, line 4: releases rise by tick, at equal ticks by task; before it stands RELEASE 2 t0",
        ),
        ("TASK\nADD r0 r0\n", "X 2 4, after the last line: the sheet ends before END"),
        ("# nothing", "X 2 0, after the last line: the sheet ends before END"),
    ];
    for (text, expected) in cases {
        assert_eq!(built(text), (1, told(expected)), "{text}");
    }
    // Without a byte it is no text.
    assert_eq!(built(""), (1, told("X 2 0: the sheet ends before END")));
    let expected = told("X 5 160, line 33: a sheet has at most 32 words");
    assert_eq!(built(&"WORD 7\n".repeat(33)), (1, expected));
}

/// Operands too large for their bytes are the library's to refuse, after 4 and 5.
#[test]
fn operands_too_wide_for_the_builder() {
    let cases = [
        ("TASK\nADD r256 r0", "X 6 1, line 2: r256 is no register, they are r0 to r7"),
        ("TASK\nREAD r0 w4294967295", "X 6 1, line 2: the word w4294967295 is not declared"),
        ("TASK\nADD r0 r0\nRELEASE 65536 t0", "X 6 4, line 3: tick 65536 is above 65535"),
        ("ADD r256 r0", "X 4 0, line 1: ADD stands only in a task's body"),
    ];
    for (text, expected) in cases {
        assert_eq!(built(text), (1, told(expected)), "{text}");
    }
}

#[test]
fn texts_that_the_builder_cannot_take() {
    let cases = [
        ("END\nWARD 2", "line 2: 'WARD' is no command; did you mean WORD?"),
        (
            "WORD 4294967296",
            "line 1: WORD: 4294967296 is too large for a value, the highest is 4294967295",
        ),
        (
            "TASK\nBYTE 17\nBYTE 0\nBYTE 0",
            "line 2: ADD must be written as a whole, not as bare bytes",
        ),
    ];
    for (text, expected) in cases {
        assert_eq!(built(text), (2, told(expected)), "{text}");
    }
    let (status, said) = built("TASK\nADD r0");
    assert_eq!(status, 2);
    assert!(said.starts_with("standard input: line 2: ADD takes 2 operand"), "{said}");
    // A bare byte that is a whole command is one.
    assert_eq!(run(&["build", "-"], b"BYTE 3\nADD r0 r0\nBYTE 5").stdout, [3, 0x11, 0, 0, 5]);
}

/// Cut bytes end where the check says.
#[test]
fn cut_bytes_in_the_builder() {
    let cut = failure(&["build", "-"], &[3, 0x11, 0, 0, 0x10, 0]);
    assert_eq!(cut, (1, told("X 2 4: the sheet ends inside LOAD")));
    let after_end = failure(&["build", "-"], &[3, 0x11, 0, 0, 5, 0x10]);
    assert_eq!(after_end, (1, told("X 3 5: a byte follows END")));
}

#[test]
fn a_file_takes_the_output() {
    let folder = own_folder("forms");
    let path = folder.join("made.sheet");
    let file = path.to_str().unwrap();
    for (option, value) in [("-o", Some(file)), ("--output", Some(file)), ("--output=", None)] {
        let attached = format!("{option}{file}");
        let arguments = match value {
            Some(value) => vec!["encode", option, value, "worked/p5.txt"],
            None => vec!["encode", attached.as_str(), "worked/p5.txt"],
        };
        assert_eq!(failure(&arguments, b""), (0, String::new()));
        assert!(std::fs::read(&path).unwrap() == stored("worked/p5", "sheet"));
        std::fs::remove_file(&path).unwrap();
    }
    assert_eq!(
        run(&["encode", "-o", "-", "worked/p5.txt"], b"").stdout,
        stored("worked/p5", "sheet")
    );
    std::fs::remove_dir(folder).unwrap();
}
