//! What the check answers to a text: number, place, line, and a sentence for each kind of fault.

use simulator::check;
use simulator::generator::{case, SEED};
use tools::encode::encode;
use tools::explain::{reason, verdict};
use tools::names::Names;

fn answer(text: &str) -> String {
    let encoded = encode(text).unwrap();
    verdict(&encoded.bytes, &encoded.names, |place| encoded.line_of(place)).to_string()
}

#[test]
fn a_good_sheet_is_accepted() {
    assert_eq!(answer("TASK\nLOAD r0 5\nEND"), "accepted");
}

#[test]
fn bytes_that_are_no_sheet() {
    assert_eq!(answer("\nBYTE 255"), "X 1 0, line 2: the byte FF names no command");
    assert_eq!(answer("BYTE 1\nBYTE 0"), "X 2 0, line 1: WORD is cut: 1 of 4 operand bytes");
    assert_eq!(answer("TASK\nBEGIN"), "X 2 2, after the last line: the sheet ends before END");
    assert_eq!(answer("TASK\nLOAD r0 5\nEND\nBYTE 9"), "X 3 8, line 4: a byte follows END");
    assert_eq!(answer("TASK\nLOAD r0 5\nEND\nEND"), "X 3 8, line 4: a byte follows END");
}

#[test]
fn misplaced_commands() {
    let cases = [
        ("TASK\nWORD 1", "X 4 1, line 2: WORDs come before the first BLOCK and the first TASK"),
        ("TASK\nBLOCK 0 0 0 0 0 0 0 0 0", "X 4 1, line 2: BLOCKs come before the first TASK"),
        (
            "TASK\nADD r0 r0\nRELEASE 0 t0\nTASK",
            "X 4 8, line 4: TASKs come before the first RELEASE",
        ),
        ("END", "X 4 0, line 1: a sheet has at least one TASK"),
        ("TASK\nTASK", "X 4 1, line 2: the body of t0 is empty"),
        ("TASK\nADD r0 r0\nTASK\nEND", "X 4 5, line 4: the body of t1 is empty"),
        (
            "WORD 0\nTASK\nPAIR w0 r0 r1\nRELEASE 0 t0",
            "X 4 10, line 4: the body of t0 ends with PAIRs waiting for their SWAP",
        ),
        ("TASK\nBEGIN\nEND", "X 4 2, line 3: the body of t0 ends before COMMIT"),
        ("LOAD r0 5", "X 4 0, line 1: LOAD stands only in a task's body"),
        (
            "TASK\nADD r0 r0\nRELEASE 0 t0\nADD r0 r0",
            "X 4 8, line 4: ADD stands only in a task's body",
        ),
        ("TASK\nSWAP r0", "X 4 1, line 2: no PAIR waits for this SWAP"),
        ("TASK\nCOMMIT", "X 4 1, line 2: COMMIT stands only between BEGIN and COMMIT"),
        ("TASK\nBEGIN\nREAD r0 w0", "X 4 2, line 3: READ stands only outside transactions"),
        ("TASK\nBEGIN\nBEGIN", "X 4 2, line 3: BEGIN stands only outside transactions"),
        (
            "WORD 0\nTASK\nPAIR w0 r0 r1\nBEGIN",
            "X 4 10, line 4: BEGIN while PAIRs wait for their SWAP",
        ),
    ];
    for (text, expected) in cases {
        assert_eq!(answer(text), expected, "{text}");
    }
}

/// The text with `count` lines made from the numbers 0, 1, 2 and so on.
fn with_lines(start: &str, count: usize, line: impl Fn(usize) -> String) -> String {
    let lines: Vec<String> = (0..count).map(line).collect();
    format!("{start}\n{}", lines.join("\n"))
}

#[test]
fn ceilings() {
    let block = "BLOCK 0 0 0 0 0 0 0 0 0\n";
    let cases = [
        (
            with_lines("", 33, |_| "WORD 0".to_string()),
            "X 5 160, line 34: a sheet has at most 32 words",
        ),
        (block.repeat(17), "X 5 592, line 17: a sheet has at most 16 blocks"),
        ("TASK\nADD r0 r0\n".repeat(9), "X 5 32, line 17: a sheet has at most 8 tasks"),
        (
            with_lines("TASK", 513, |_| "ADD r0 r0".to_string()),
            "X 5 1537, line 514: the bodies have 512 commands already, the most of a sheet",
        ),
        (
            with_lines("TASK\nADD r0 r0", 257, |tick| format!("RELEASE {tick} t0")),
            "X 5 1028, line 259: a sheet has at most 256 releases",
        ),
        (
            with_lines(&format!("{}TASK", "WORD 0\n".repeat(9)), 9, |w| format!("PAIR w{w} r0 r1")),
            "X 5 78, line 19: a SWAP has at most 8 PAIRs",
        ),
        (
            with_lines(&format!("{}TASK\nBEGIN", block.repeat(9)), 9, |b| format!("GET r0 b{b} 0")),
            "X 5 367, line 20: a transaction names at most 8 different blocks",
        ),
        (
            with_lines(&format!("{}TASK\nBEGIN", block.repeat(5)), 5, |b| format!("PUT b{b} 0 r0")),
            "X 5 203, line 12: a transaction PUTs at most 4 different blocks",
        ),
    ];
    for (text, expected) in cases {
        assert_eq!(answer(&text), expected);
    }
}

#[test]
fn operands_out_of_range() {
    let block = "BLOCK 0 0 0 0 0 0 0 0 0\nTASK\nBEGIN\n";
    let cases = [
        (
            "BLOCK 16777216 0 0 0 0 0 0 0 0".to_string(),
            "X 6 0, line 1: version 16777216 is above 16777215",
        ),
        ("TASK\nADD r0 r8".to_string(), "X 6 1, line 2: r8 is no register, they are r0 to r7"),
        ("TASK\nREAD r0 w0".to_string(), "X 6 1, line 2: the word w0 is not declared"),
        (format!("{block}GET r0 b1 0"), "X 6 39, line 4: the block b1 is not declared"),
        (format!("{block}PUT b0 8 r0"), "X 6 39, line 4: 8 is no offset, they are 0 to 7"),
        ("TASK\nADD r0 r0\nRELEASE 0 t1".to_string(), "X 6 4, line 3: the task t1 is not declared"),
    ];
    for (text, expected) in cases {
        assert_eq!(answer(&text), expected);
    }
}

#[test]
fn pairs_and_releases() {
    assert_eq!(
        answer("WORD 0\nTASK\nPAIR w0 r0 r1\nPAIR w0 r0 r1"),
        "X 7 10, line 4: w0 is already in the waiting PAIRs"
    );
    assert_eq!(
        answer("TASK\nADD r0 r0\nRELEASE 2 t0\nRELEASE 1 t0"),
        "X 8 8, line 4: releases rise by tick, at equal ticks by task; before it stands RELEASE 2 t0"
    );
}

/// With the largest numbers that an operand can have.
#[test]
fn reasons_stay_short() {
    let cases = [
        "BLOCK 4294967295 0 0 0 0 0 0 0 0",
        "TASK\nLOAD r255 4294967295",
        "TASK\nREAD r0 w255",
        "TASK\nADD r0 r0\nRELEASE 65535 t0\nRELEASE 65535 t0",
        "TASK a-name-of-32-letters-in-this-tex\nBEGIN\nEND",
    ];
    for text in cases {
        let encoded = encode(text).unwrap();
        let reason = reason(&encoded.bytes, check(&encoded.bytes), &encoded.names);
        assert!((1..=LONGEST_REASON).contains(&reason.len()), "{reason}");
    }
}

/// In letters: a line of a terminal, and some.
const LONGEST_REASON: usize = 100;

#[test]
fn every_refusal_of_the_corpus_has_a_reason() {
    let mut numbers = [0; 9];
    for index in 0..1500 {
        let sheet = case(SEED, index).sheet;
        let answer = check(&sheet);
        numbers[usize::from(answer.number)] += 1;
        if answer.number > 0 {
            let reason = reason(&sheet, answer, &Names::default());
            assert!((1..=LONGEST_REASON).contains(&reason.len()), "{answer:?}: {reason}");
        }
    }
    assert!(numbers.iter().all(|count| *count > 0), "{numbers:?}");
}

/// Where the text has a name, the reason has it too.
#[test]
fn reasons_use_the_names_of_the_text() {
    let empty = "TASK guard\nEND";
    assert_eq!(answer(empty), "X 4 1, line 2: the body of t0 guard is empty");
    let twice = "WORD 0 mark\nTASK\nPAIR mark r0 r1\nPAIR w0 r2 r3";
    assert_eq!(answer(twice), "X 7 10, line 4: w0 mark is already in the waiting PAIRs");
}
