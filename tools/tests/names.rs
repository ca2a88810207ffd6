//! Names in the text form: what may be one, where one may stand, and the round trip through decode.

use simulator::check;
use simulator::generator::{case, SEED};
use simulator::write::*;
use tools::decode::decode;
use tools::encode::{encode, lines, Line};
use tools::examples::{folder, names as examples};
use tools::names::Names;
use tools::recording::subject::Subject;

fn fault_of(text: &str) -> String {
    encode(text).unwrap_err().to_string()
}

fn named(pairs: &[(Subject, &str)]) -> Names {
    let mut names = Names::default();
    for (subject, name) in pairs {
        names.set(*subject, name);
    }
    names
}

const ROOM: &str = "
WORD 12 setpoint
WORD 3
BLOCK 7 31 30 0 0 0 0 0 0 logbook-1
TASK logbook-1
  BEGIN
  GET r1 logbook-1 0
  PUT logbook-1 1 r1
  COMMIT
TASK guard_2
  READ r1 setpoint
  PAIR setpoint r1 r2
  PAIR w1 r3 r4
  SWAP r0
RELEASE 0 guard_2
RELEASE 5 logbook-1
RELEASE 5 t1
END
";

fn room() -> Vec<u8> {
    sheet(&[
        word(12),
        word(3),
        block(7, [31, 30, 0, 0, 0, 0, 0, 0]),
        task(),
        begin(),
        get(1, 0, 0),
        put(0, 1, 1),
        commit(),
        task(),
        read(1, 0),
        pair(0, 1, 2),
        pair(1, 3, 4),
        swap(0),
        release(0, 1),
        release(5, 0),
        release(5, 1),
        end(),
    ])
}

fn room_names() -> Names {
    named(&[
        (Subject::Word(0), "setpoint"),
        (Subject::Block(0), "logbook-1"),
        (Subject::Task(0), "logbook-1"),
        (Subject::Task(1), "guard_2"),
    ])
}

#[test]
fn names_stand_for_numbers_and_leave_no_bytes() {
    let encoded = encode(ROOM).unwrap();
    assert_eq!(encoded.bytes, room());
    assert_eq!(encoded.names, room_names());
    assert_eq!(check(&encoded.bytes).number, 0);
    let read: Result<Vec<Line>, _> = lines(ROOM).collect();
    let read = read.unwrap();
    assert_eq!(read[0].named, Some((Subject::Word(0), "setpoint".to_string())));
    assert_eq!((read[9].number, &read[9].operands), (11, &vec![1, 0]));
}

#[test]
fn decode_writes_the_names_again() {
    let expected = "\
WORD 12 setpoint          # w0
WORD 3                    # word w1
BLOCK 7 31 30 0 0 0 0 0 0 logbook-1  # b0
TASK logbook-1            # t0
  BEGIN
  GET r1 logbook-1 0
  PUT logbook-1 1 r1
  COMMIT
TASK guard_2              # t1
  READ r1 setpoint
  PAIR setpoint r1 r2     # w0: old in r1, new in r2
  PAIR w1 r3 r4           # w1: old in r3, new in r4
  SWAP r0
RELEASE 0 guard_2
RELEASE 5 logbook-1
RELEASE 5 guard_2
END
# check: accepted
";
    assert_eq!(decode(&room(), &room_names()), expected);
}

/// A name that encode would not take, or for what is not declared before it is used.
#[test]
fn decode_leaves_out_what_the_text_cannot_have() {
    let names = named(&[
        (Subject::Word(0), "compressor 1"),
        (Subject::Word(1), "twin"),
        (Subject::Word(2), "twin"),
        (Subject::Word(3), "nowhere"),
        (Subject::Task(0), "END"),
    ]);
    let bytes = sheet(&[word(1), word(2), word(3), task(), read(0, 1), read(1, 2), read(2, 3)]);
    let text = decode(&bytes, &names);
    let expected = "\
WORD 1                    # word w0
WORD 2 twin               # w1
WORD 3                    # word w2
TASK                      # task t0
  READ r0 twin
  READ r1 w2
  READ r2 w3
# check: X 6 22, line 7: the word w3 is not declared
";
    assert_eq!(text, expected);
    assert_eq!(encode(&text).unwrap().names, named(&[(Subject::Word(1), "twin")]));
}

#[test]
fn texts_that_are_no_name() {
    let cases = [
        ("-a", "'-a' is no name: it must begin with a letter, a to z or A to Z"),
        ("über", "'über' is no name: it must begin with a letter, a to z or A to Z"),
        ("a.b", "'a.b' is no name: '.' may not stand in it, only a to z, A to Z, digits, - and _"),
        ("tür", "'tür' is no name: 'ü' may not stand in it, only a to z, A to Z, digits, - and _"),
        ("SWAP", "'SWAP' is no name: it is the word of a command"),
        ("BYTE", "'BYTE' is no name: it is the word of a command"),
        ("r1", "'r1' is no name: it is the number of a register"),
        ("w0", "'w0' is no name: it is the number of a word"),
        ("b007", "'b007' is no name: it is the number of a block"),
        ("t12", "'t12' is no name: it is the number of a task"),
    ];
    for (name, reason) in cases {
        assert_eq!(fault_of(&format!("\nTASK {name}")), format!("line 2: TASK: {reason}"));
        assert!(fault_of(&format!("WORD 12 {name}")).ends_with(reason), "{name}");
    }
    let reason = "'5' is no name: it must begin with a letter, a to z or A to Z";
    assert_eq!(fault_of("TASK 5"), format!("line 1: TASK: {reason}"));
    let (longest, longer) = ("n".repeat(32), "n".repeat(33));
    assert!(encode(&format!("TASK {longest}")).is_ok());
    let reason = "is no name: it has 33 characters, the most is 32";
    assert_eq!(fault_of(&format!("TASK {longer}")), format!("line 1: TASK: '{longer}' {reason}"));
    for name in ["r", "w", "t1a", "R1", "word", "end", "x-", "a_b-c9"] {
        assert!(encode(&format!("TASK {name}")).is_ok(), "{name}");
    }
}

#[test]
fn a_name_stands_once_in_its_kind() {
    let twice = "\n\nWORD 1 speed\nWORD 2\nWORD 3 speed";
    assert_eq!(fault_of(twice), "line 5: WORD: 'speed' is already the name of w0, line 3");
    let twice = "TASK a\nADD r0 r0\nTASK b\nADD r0 r0\nTASK b";
    assert_eq!(fault_of(twice), "line 5: TASK: 'b' is already the name of t1, line 3");
    assert!(encode("WORD 1 a\nBLOCK 0 0 0 0 0 0 0 0 0 a\nTASK a\nREAD r0 a\nRELEASE 0 a").is_ok());
}

#[test]
fn operands_that_no_name_fits() {
    let start = "WORD 1 setpoint\nWORD 2 speed\nBLOCK 0 0 0 0 0 0 0 0 0 log\nTASK guard\n";
    let fault = |line: &str| {
        let fault = encode(&format!("{start}{line}")).unwrap_err();
        assert_eq!(fault.line, 5);
        fault.reason
    };
    assert_eq!(
        fault("READ r1 setpont"),
        "READ: no word is named 'setpont'; did you mean setpoint?"
    );
    assert_eq!(fault("READ r1 Speed"), "READ: no word is named 'Speed'; did you mean speed?");
    assert_eq!(fault("READ r1 spede"), "READ: no word is named 'spede'");
    assert_eq!(fault("READ r1 pressure"), "READ: no word is named 'pressure'");
    assert_eq!(fault("GET r1 lag 0"), "GET: no block is named 'lag'; did you mean log?");
    assert_eq!(fault("RELEASE 0 gard"), "RELEASE: no task is named 'gard'; did you mean guard?");
    assert_eq!(fault("READ r1 guard"), "READ: 'guard' is a task (t0), and a word is wanted here");
    assert_eq!(fault("RELEASE 0 log"), "RELEASE: 'log' is a block (b0), and a task is wanted here");
    assert_eq!(fault("SWAP speed"), "SWAP: 'speed' is a word (w1), and a register is wanted here");
    assert_eq!(fault("LOAD r1 speed"), "LOAD: 'speed' is a word (w1), and a value is wanted here");
    assert_eq!(fault("SWAP answer"), "SWAP: 'answer' is no register, as in r0");
    assert_eq!(fault("READ r1 b0"), "READ: 'b0' is no word, as in w0");
    assert_eq!(fault("READ r1 1"), "READ: '1' is no word, as in w0");
    assert_eq!(fault("LOAD r1 1 speed"), "LOAD takes 2 operands (register, value), not 3");
}

#[test]
fn declarations_with_too_much_or_too_little() {
    let cases = [
        ("WORD speed", "WORD takes 1 operand (value) before its name, not 0"),
        ("WORD", "WORD takes 1 operand (value), not 0"),
        ("WORD 1 2", "WORD takes 1 operand (value), not 2"),
        ("WORD 1 2 3", "WORD takes 1 operand (value), not 3"),
        ("WORD 1 2 speed", "WORD takes 1 operand (value), not 2"),
        ("BLOCK 7 1 2 3 4 5 6 7 8 9", "BLOCK takes 9 operands (version, 8 values), not 10"),
        (
            "BLOCK 7 1 2 3 4 5 6 7 log",
            "BLOCK takes 9 operands (version, 8 values) before its name, not 8",
        ),
        ("WORD 1 compressor 1", "WORD: a name has no spaces; write compressor-1"),
        ("TASK hand over", "TASK: a name has no spaces; write hand-over"),
        ("WORD x1 speed", "WORD: 'x1' is no decimal number (value)"),
    ];
    for (text, reason) in cases {
        assert_eq!(fault_of(text), format!("line 1: {reason}"));
    }
}

/// Bare bytes may declare words too, so a name behind them might fall to the wrong one.
#[test]
fn no_name_is_given_behind_bare_bytes() {
    let bare = "BYTE 1\nBYTE 0\nBYTE 0\nBYTE 0\nBYTE 9\n";
    let reason = "line 6: WORD: no name may stand here, behind a BYTE line";
    assert_eq!(fault_of(&format!("{bare}WORD 1 speed")), reason);
    assert!(encode(&format!("WORD 1 speed\n{bare}WORD 1\nTASK\nREAD r0 speed")).is_ok());
}

#[test]
fn examples_make_the_round_trip_with_their_names() {
    let mut with_names = 0;
    for name in examples().unwrap() {
        let text = std::fs::read_to_string(folder().join(format!("{name}.txt"))).unwrap();
        let encoded = encode(&text).unwrap();
        let again = encode(&decode(&encoded.bytes, &encoded.names)).unwrap();
        assert_eq!((&again.bytes, &again.names), (&encoded.bytes, &encoded.names), "{name}");
        with_names += usize::from(encoded.names != Names::default());
    }
    assert_eq!(with_names, 3);
}

/// Every second word, block and task has a name, as many as any sheet can have.
#[test]
fn generated_sheets_make_the_round_trip_with_names() {
    let subjects = (0..40).flat_map(|number| {
        [Subject::Word(2 * number), Subject::Block(2 * number), Subject::Task(2 * number + 1)]
    });
    let mut names = Names::default();
    for subject in subjects {
        names.set(subject, &format!("n-{}", subject.to_string().replace(['w', 'b', 't'], "")));
    }
    let mut named = 0;
    for index in 0..600 {
        let bytes = case(SEED, index).sheet;
        let text = decode(&bytes, &names);
        let encoded = encode(&text).unwrap();
        assert_eq!(encoded.bytes, bytes);
        assert_eq!(decode(&bytes, &encoded.names), text);
        let Ok(parsed) = simulator::sheet::parse(&bytes) else { continue };
        let (words, blocks, tasks) = (parsed.words.len(), parsed.blocks.len(), parsed.bodies.len());
        encoded.names.check(words, blocks, tasks).unwrap();
        for word in 0..words {
            let subject = Subject::Word(word);
            assert_eq!(encoded.names.name(subject), names.name(subject));
        }
        for task in 0..tasks {
            let subject = Subject::Task(task);
            assert_eq!(encoded.names.name(subject), names.name(subject));
            named += usize::from(names.name(subject).is_some());
        }
    }
    assert!(named > 100, "{named}");
}
