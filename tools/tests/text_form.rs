//! The text form: both directions, their refusals, and the round trip over the simulator's corpus.

use simulator::check;
use simulator::generator::{case, SEED};
use simulator::random::Random;
use simulator::write::*;
use tools::decode::{commands, decode};
use tools::encode::{encode, encode_utf8, lines, Line};
use tools::form::TABLE;
use tools::names::Names;

fn bytes_of(text: &str) -> Vec<u8> {
    encode(text).unwrap().bytes
}

fn fault_of(text: &str) -> String {
    encode(text).unwrap_err().to_string()
}

fn text_of(bytes: &[u8]) -> String {
    decode(bytes, &Names::default())
}

fn byte_fault_of(bytes: &[u8]) -> String {
    commands(bytes).unwrap_err().to_string()
}

#[test]
fn every_command_has_its_bytes() {
    let text = "
        WORD 4294967295
        BLOCK 16777215 1 2 3 4 5 6 7 8
        TASK                # a comment
        LOAD r1 12          # another # one
        ADD r2 r3
        READ r4 w31
        PAIR w5 r6 r7
        SWAP r0
        BEGIN
        GET r1 b15 7
        PUT b14 6 r2
        COMMIT
        RELEASE 65535 t7
        END
    ";
    let commands = [
        word(u32::MAX),
        block(16_777_215, [1, 2, 3, 4, 5, 6, 7, 8]),
        task(),
        load(1, 12),
        add(2, 3),
        read(4, 31),
        pair(5, 6, 7),
        swap(0),
        begin(),
        get(1, 15, 7),
        put(14, 6, 2),
        commit(),
        release(65_535, 7),
        end(),
    ];
    assert_eq!(commands.len(), TABLE.len());
    assert_eq!(bytes_of(text), sheet(&commands));
}

#[test]
fn the_table_has_the_widths_of_the_check() {
    for row in &TABLE {
        let mut bytes = vec![0; 1 + row.width()];
        bytes[0] = row.byte;
        assert_ne!(check(&bytes).number, 1, "{}", row.word);
        assert!(check(&bytes).number != 2 || check(&bytes).place > 0, "{}", row.word);
        if let Some((_, cut)) = bytes.split_last().filter(|(_, cut)| !cut.is_empty()) {
            assert_eq!((check(cut).number, check(cut).place), (2, 0), "{}", row.word);
        }
    }
}

#[test]
fn operands_beyond_their_range_can_be_written() {
    assert_eq!(bytes_of("ADD r8 r255"), [0x11, 8, 255]);
    assert_eq!(bytes_of("GET r9 b200 77"), [0x21, 9, 200, 77]);
    assert_eq!(bytes_of("RELEASE 0 t8"), [4, 0, 0, 8]);
    assert_eq!(bytes_of("BLOCK 4294967295 0 0 0 0 0 0 0 0")[..5], [2, 255, 255, 255, 255]);
    assert_eq!(bytes_of("END\nEND\nWORD 1"), [5, 5, 1, 0, 0, 0, 1]);
    assert_eq!(bytes_of("BYTE 255\nBYTE 0"), [255, 0]);
    assert_eq!(bytes_of("# only a comment\n\n"), []);
}

#[test]
fn a_text_is_refused_with_its_line() {
    assert_eq!(fault_of("WORD 1\n\nWORDS 2"), "line 3: 'WORDS' is no command; did you mean WORD?");
    assert_eq!(fault_of("word 1"), "line 1: 'word' is no command; did you mean WORD?");
    assert_eq!(fault_of("LOAD r1"), "line 1: LOAD takes 2 operands (register, value), not 1");
    assert_eq!(fault_of("# a\nEND 5"), "line 2: END takes 0 operands, not 1");
    assert_eq!(fault_of("SWAP"), "line 1: SWAP takes 1 operand (register), not 0");
    let reason = "BLOCK takes 9 operands (version, 8 values), not 3";
    assert_eq!(fault_of("BLOCK 1 2 3"), format!("line 1: {reason}"));
    assert_eq!(fault_of("LOAD 1 12"), "line 1: LOAD: '1' is no register, as in r0");
    assert_eq!(fault_of("PAIR r0 w1 r2"), "line 1: PAIR: 'r0' is no word, as in w0");
    assert_eq!(fault_of("WORD 0x12"), "line 1: WORD: '0x12' is no decimal number (value)");
    assert_eq!(fault_of("WORD -1"), "line 1: WORD: '-1' is no decimal number (value)");
    assert_eq!(fault_of("WORD +1"), "line 1: WORD: '+1' is no decimal number (value)");
    let too_large = "is too large for a value, the highest is 4294967295";
    assert_eq!(fault_of("WORD 4294967296"), format!("line 1: WORD: 4294967296 {too_large}"));
    let far_too_large = "9".repeat(40);
    let reason = format!("line 1: WORD: {far_too_large} {too_large}");
    assert_eq!(fault_of(&format!("WORD {far_too_large}")), reason);
    let reason = "is too large for a register, the highest is r7";
    assert_eq!(fault_of("SWAP r256"), format!("line 1: SWAP: r256 {reason}"));
    let reason = "is too large for a tick, the highest is 65535";
    assert_eq!(fault_of("RELEASE 65536 t0"), format!("line 1: RELEASE: 65536 {reason}"));
    let fault = encode_utf8(b"WORD 1\nWORD \xFF").unwrap_err();
    assert_eq!(fault.to_string(), "line 2: the line is no UTF-8 text");
}

/// For the builder, which judges them itself.
#[test]
fn lines_have_operands_of_any_size() {
    let read: Result<Vec<Line>, _> = lines("# a\nRELEASE 65536 t300\n\nBYTE 9\nEND").collect();
    let found: Vec<_> =
        read.unwrap().into_iter().map(|line| (line.number, line.byte, line.operands)).collect();
    assert_eq!(found, [(2, 4, vec![65_536, 300]), (4, 9, vec![]), (5, 5, vec![])]);
    // encode meets the first line at fault, whatever its fault is.
    let reason = "is too large for a register, the highest is r7";
    assert_eq!(fault_of("SWAP r256\nSWOP r0"), format!("line 1: SWAP: r256 {reason}"));
}

/// A message repeats 40 characters of the text at most, and none that a terminal would obey.
#[test]
fn long_texts_are_not_repeated() {
    let (long, cut) = ("x".repeat(10_000), format!("'{}…'", "x".repeat(40)));
    assert_eq!(fault_of(&long), format!("line 1: {cut} is no command"));
    assert_eq!(
        fault_of(&format!("SWAP {long}")),
        format!("line 1: SWAP: {cut} is no register, as in r0")
    );
    let reason = format!("line 1: READ: {cut} is no word, as in w0");
    assert_eq!(fault_of(&format!("READ r0 {long}")), reason);
    let reason = format!("line 1: LOAD: {cut} is no decimal number (value)");
    assert_eq!(fault_of(&format!("LOAD r0 {long}")), reason);
    let reason = format!("line 1: TASK: {cut} is no name: it has 10000 characters, the most is 32");
    assert_eq!(fault_of(&format!("TASK {long}")), reason);
    let nines = "9".repeat(10_000);
    let reason = "is too large for a byte, the highest is 255";
    let repeated = format!("{}…", "9".repeat(40));
    assert_eq!(fault_of(&format!("BYTE {nines}")), format!("line 1: BYTE: {repeated} {reason}"));
    let reason = "is too large for a word, the highest is w31";
    let repeated = format!("w{}…", "9".repeat(39));
    assert_eq!(
        fault_of(&format!("READ r0 w{nines}")),
        format!("line 1: READ: {repeated} {reason}")
    );
    let many = "WORD 1 a ".to_string() + &"b ".repeat(10_000);
    let joined = format!("a{}-…", "-b".repeat(19));
    assert_eq!(fault_of(&many), format!("line 1: WORD: a name has no spaces; write {joined}"));
    let reason = "BYTE takes 1 operand (byte), not 10000";
    assert_eq!(fault_of(&format!("BYTE {}", "1 ".repeat(10_000))), format!("line 1: {reason}"));
    assert_eq!(fault_of("\u{1b}[31m"), "line 1: '\u{fffd}[31m' is no command");
}

#[test]
fn line_ends_and_marks_of_other_systems() {
    let unix = encode("WORD 7 speed\nTASK\n  READ r0 speed # now\nEND\n").unwrap();
    let windows =
        encode("\u{feff}WORD 7 speed\r\nTASK\r\n  READ r0 speed # now\r\nEND\r\n").unwrap();
    assert_eq!(unix, windows);
    assert_eq!(encode_utf8(b"\xEF\xBB\xBFEND\r\n").unwrap().bytes, [5]);
    assert_eq!(fault_of("\u{feff}\r\nENDE\r\n"), "line 2: 'ENDE' is no command; did you mean END?");
    let reason = "line 1: a line ends in CR alone; lines end in LF or in CR LF";
    assert_eq!(fault_of("WORD 7 speed\rTASK\rEND\r"), reason);
    // The mark stands only in front.
    assert_eq!(fault_of("END\n\u{feff}END"), "line 2: '\u{feff}END' is no command");
}

#[test]
fn commands_are_refused_with_their_place() {
    assert_eq!(byte_fault_of(&[0xFF]), "place 0: the byte FF names no command");
    assert_eq!(byte_fault_of(&[3, 0x06]), "place 1: the byte 06 names no command");
    assert_eq!(byte_fault_of(&[1, 0, 0]), "place 0: WORD is cut: 2 of 4 operand bytes");
    assert_eq!(byte_fault_of(&[3, 0x14]), "place 1: SWAP is cut: 0 of 1 operand bytes");
}

#[test]
fn decoded_text_carries_comments() {
    let text = text_of(&sheet(&[word(12), word(22), task(), pair(1, 2, 3), swap(0)]));
    let expected = "\
WORD 12                   # word w0
WORD 22                   # word w1
TASK                      # task t0
  PAIR w1 r2 r3           # w1: old in r2, new in r3
  SWAP r0
# check: X 2 17, after the last line: the sheet ends before END
";
    assert_eq!(text, expected);
    assert_eq!(text_of(&[]), "# check: X 2 0, after the last line: the sheet ends before END\n");
}

#[test]
fn what_is_no_command_is_decoded_as_bytes() {
    let text = text_of(&[3, 0x11, 0, 0, 0xFF, 3, 5]);
    let expected = "\
TASK                      # task t0
  ADD r0 r0
BYTE 255                  # the byte FF names no command
BYTE 3
BYTE 5
# check: X 1 4, line 3: the byte FF names no command
";
    assert_eq!(text, expected);
    let text = text_of(&[5, 5, 1]);
    let expected = "\
END
BYTE 5
BYTE 1
# check: X 4 0, line 1: a sheet has at least one TASK
";
    assert_eq!(text, expected);
    let text = text_of(&[2, 0, 0]);
    let expected = "\
BYTE 2                    # BLOCK is cut: 2 of 36 operand bytes
BYTE 0
BYTE 0
# check: X 2 0, line 1: BLOCK is cut: 2 of 36 operand bytes
";
    assert_eq!(text, expected);
}

fn assert_round_trip(bytes: &[u8]) {
    let text = text_of(bytes);
    let encoded = encode(&text).unwrap();
    assert_eq!(encoded.bytes, bytes);
    assert_eq!(text_of(&encoded.bytes), text);
    let refused = check(bytes).number != 0;
    assert_eq!(text.ends_with("# check: accepted\n"), !refused);
}

#[test]
fn the_corpus_makes_the_round_trip() {
    let (mut whole, mut cut) = (0, 0);
    for index in 0..1500 {
        let bytes = case(SEED, index).sheet;
        assert_round_trip(&bytes);
        let answer = check(&bytes);
        match commands(&bytes) {
            Ok(_) => {
                whole += 1;
                assert!(answer.number != 1 && (answer.number != 2 || answer.place == bytes.len()));
            }
            Err(fault) => {
                cut += 1;
                // The check finds this fault too, or one before it.
                assert!(answer.number != 0 && answer.place <= fault.place);
            }
        }
    }
    assert!(whole > 1000 && cut > 100, "{whole} whole, {cut} cut");
}

/// Any bytes, and bytes of which most are those of commands.
#[test]
fn random_bytes_make_the_round_trip() {
    for index in 0..600 {
        let mut random = Random::new(SEED, index);
        let length = random.within(0, if index % 50 == 0 { 4893 } else { 120 });
        let bytes: Vec<u8> = (0..length)
            .map(|_| match index % 2 {
                0 => random.below(256) as u8,
                _ => random.pick(&[1, 3, 4, 0x10, 0x11, 0x12, 0x13, 0x14, 0x20, 0x21, 0x22, 0x23]),
            })
            .collect();
        assert_round_trip(&bytes);
    }
    for length in 0..=4893 / 600 {
        assert_round_trip(&vec![5; length * 600]);
    }
}
