//! The builder of change 4: sheet A command by command, each refusal at its place, and the reader's
//! answers over lists of commands.

mod common;

use common::{bytes, refusal, refusal_rows};
use simulator::builder::{widths, Builder, Call};
use simulator::compositions::{of_sheet, with_faults};
use simulator::generator::SEED;
use simulator::random::Random;
use simulator::sheet::*;
use simulator::write::{add, block, get, pair, put, release, sheet, task, word, Bytes};
use simulator::{check, Answer};

const SHEET_A: &str = "01 00 00 00 0C 03 10 01 00 00 00 0C 10 02 00 00 00 05 13 00 01 02 14 00 \
                       04 00 00 00 05";

/// A builder and its buffer, of which every byte is 2E at first.
struct Composing {
    builder: Builder,
    buffer: Vec<u8>,
}

impl Composing {
    fn with_buffer(length: usize) -> Composing {
        Composing { builder: Builder::default(), buffer: vec![0x2E; length] }
    }

    /// The commands of these bytes are taken; `free` bytes are left.
    fn after(commands: &[u8], free: usize) -> Composing {
        let mut composing = Composing::with_buffer(commands.len() + free);
        for call in of_sheet(commands) {
            assert_eq!(composing.call(&call).number, 0, "{call:?}");
        }
        assert_eq!(composing.buffer[..commands.len()], *commands);
        assert_eq!(composing.builder.filled(), commands.len());
        composing
    }

    /// What must hold of every call: a refusal changes nothing, and a taken command only its bytes.
    fn call(&mut self, call: &Call) -> Answer {
        let filled = self.builder.filled();
        let before = self.buffer.clone();
        let state = format!("{:?}", self.builder);
        let answer = self.builder.compose(call, &mut self.buffer);
        if answer.number == 0 {
            let bytes = call.bytes().unwrap();
            assert_eq!(answer.place, filled + bytes.len());
            assert_eq!(self.buffer[..filled], before[..filled]);
            assert_eq!(self.buffer[filled..answer.place], bytes);
            assert_eq!(self.buffer[answer.place..], before[answer.place..]);
        } else {
            assert_eq!(answer.place, filled);
            assert_eq!(self.buffer, before);
            assert_eq!(format!("{:?}", self.builder), state);
        }
        answer
    }

    fn number(&mut self, command: u8, operands: &[u32]) -> u8 {
        self.call(&Call::new(command, operands)).number
    }
}

fn assert_refused(before: &[Bytes], command: u8, operands: &[u32], number: u8) {
    // 11 comes after all others: the same answer with no free byte.
    for free in [64, 0] {
        let mut composing = Composing::after(&sheet(before), free);
        assert_eq!(composing.number(command, operands), number, "{command:02x} {operands:?}");
    }
}

#[test]
fn sheet_a_command_by_command() {
    let mut composing = Composing::with_buffer(40);
    let commands = [
        (WORD, &[12][..], 5),
        (TASK, &[], 6),
        (LOAD, &[1, 12], 12),
        (LOAD, &[2, 5], 18),
        (PAIR, &[0, 1, 2], 22),
        (SWAP, &[0], 24),
        (RELEASE, &[0, 0], 28),
        (END, &[], 29),
    ];
    for (command, operands, filled) in commands {
        assert_eq!(composing.call(&Call::new(command, operands)), refusal(0, filled));
    }
    assert_eq!(composing.buffer[..29], bytes(SHEET_A));
    assert_eq!(composing.buffer[29..], [0x2E; 11]);
    assert_eq!(check(&composing.buffer[..29]), refusal(0, 0));
}

/// The refusal table: each small input's commands are taken up to the one at fault. A cut one (2)
/// cannot be handed over.
#[test]
fn rows_of_the_refusal_table() {
    for (bytes, expected) in refusal_rows().into_iter().filter(|(_, row)| row.number != 2) {
        let calls = of_sheet(&bytes);
        let (last, before) = calls.split_last().unwrap();
        // Enough, and so little that the refused command would not fit.
        for length in [bytes.len() + 1, expected.place] {
            let mut composing = Composing::with_buffer(length);
            assert!(before.iter().all(|call| composing.call(call).number == 0));
            assert_eq!(composing.call(last), expected);
        }
    }
    assert_eq!(of_sheet(&bytes("01 00 00")), []);
    assert_eq!(of_sheet(&[]), []);
}

#[test]
fn after_end_every_command_gets_3() {
    // With free bytes, and in a full buffer.
    for free in [64, 0] {
        let mut composing = Composing::after(&bytes(SHEET_A), free);
        for command in 0..=255 {
            assert_eq!(composing.call(&Call::new(command, &[9; 9])), refusal(3, 29));
        }
    }
}

#[test]
fn bytes_that_name_no_command() {
    for command in (0..=255).filter(|command| widths(*command).is_none()) {
        assert_refused(&[], command, &[], 1);
        assert_refused(&[task(), add(0, 0)], command, &[1; 9], 1);
    }
    assert_eq!((0..=255).filter(|command| widths(*command).is_some()).count(), 14);
}

/// Operands above the largest number of their bytes are out of range, whatever their low bytes are.
#[test]
fn operands_too_wide() {
    let declared = [word(7), block(1, [3; 8]), task()];
    let inside = [sheet(&declared), vec![BEGIN]];
    let done = [task(), add(0, 0)];
    for wide in [256, 257, 65_536, 1 << 24, u32::MAX] {
        assert_refused(&declared, LOAD, &[wide, 0], 6);
        assert_refused(&declared, ADD, &[wide, 0], 6);
        assert_refused(&declared, ADD, &[0, wide], 6);
        assert_refused(&declared, READ, &[wide, 0], 6);
        assert_refused(&declared, READ, &[0, wide], 6);
        assert_refused(&declared, PAIR, &[wide, 0, 0], 6);
        assert_refused(&declared, PAIR, &[0, wide, 0], 6);
        assert_refused(&declared, PAIR, &[0, 0, wide], 6);
        assert_refused(&[sheet(&declared), pair(0, 0, 0)], SWAP, &[wide], 6);
        assert_refused(&inside, GET, &[wide, 0, 0], 6);
        assert_refused(&inside, GET, &[0, wide, 0], 6);
        assert_refused(&inside, GET, &[0, 0, wide], 6);
        assert_refused(&inside, PUT, &[wide, 0, 0], 6);
        assert_refused(&inside, PUT, &[0, wide, 0], 6);
        assert_refused(&inside, PUT, &[0, 0, wide], 6);
        assert_refused(&done, RELEASE, &[0, wide], 6);
    }
    assert_refused(&done, RELEASE, &[65_536, 0], 6);
    assert_refused(&[], BLOCK, &[16_777_216], 6);
    // 6 goes before 7 and 8.
    assert_refused(&[sheet(&declared), pair(0, 0, 0)], PAIR, &[0, 256, 0], 6);
    assert_refused(&[sheet(&done), release(9, 0)], RELEASE, &[65_536, 0], 6);
    assert_refused(&[sheet(&done), release(9, 0)], RELEASE, &[9, 0], 8);
    let mut composing = Composing::after(&sheet(&done), 4);
    assert_eq!(composing.number(RELEASE, &[65_535, 0]), 0);
}

/// 4 and 5 go before the 6 of a too wide operand. Its low bytes may name a block of the transaction.
#[test]
fn misplaced_and_ceilings_before_a_wide_operand() {
    let full = add(0, 0).repeat(512);
    let opened = sheet(&[block(1, [3; 8]).repeat(9), task(), vec![BEGIN]]);
    let gets: Bytes = (0..8).flat_map(|block| get(0, block, 0)).collect();
    let puts: Bytes = (0..4).flat_map(|block| put(block, 0, 0)).collect();
    let pairs: Bytes = (0..8).flat_map(|word| pair(word, 0, 1)).collect();
    let releases: Bytes = (0..256).flat_map(|tick| release(tick, 0)).collect();
    assert_refused(&[], LOAD, &[256, 0], 4);
    assert_refused(&[task()], GET, &[0, 256, 0], 4);
    assert_refused(&[task()], RELEASE, &[65_536, 0], 4);
    assert_refused(&[task(), full.clone()], LOAD, &[256, 0], 5);
    assert_refused(&[task(), add(0, 0), releases], RELEASE, &[65_536, 0], 5);
    assert_refused(&[word(7).repeat(9), task(), pairs], PAIR, &[256, 0, 0], 5);
    assert_refused(&[opened.clone(), gets.clone()], GET, &[0, 256, 0], 5);
    assert_refused(&[opened.clone(), gets.clone()], PUT, &[256 + 7, 0, 0], 5);
    assert_refused(&[opened.clone(), puts], PUT, &[256, 0, 0], 5);
    // A block of the transaction passes no ceiling.
    assert_refused(&[opened, gets], GET, &[256, 7, 0], 6);
}

/// One free byte too few, and just as many as the command has.
#[test]
fn the_free_bytes() {
    let calls = of_sheet(&bytes(SHEET_A));
    let mut filled = 0;
    for (number, call) in calls.iter().enumerate() {
        let length = call.bytes().unwrap().len();
        for free in 0..=length {
            let mut composing = Composing::with_buffer(filled + free);
            assert!(calls[..number].iter().all(|call| composing.call(call).number == 0));
            let fits = free == length;
            let expected = if fits { refusal(0, filled + length) } else { refusal(11, filled) };
            assert_eq!(composing.call(call), expected);
        }
        filled += length;
    }
    assert_eq!(filled, 29);
    let mut empty = Composing::with_buffer(0);
    assert_eq!(empty.call(&Call::new(TASK, &[])), refusal(11, 0));
    assert_eq!(empty.call(&Call::new(END, &[])), refusal(4, 0));
    assert_eq!(empty.call(&Call::new(0, &[])), refusal(1, 0));
}

/// After a refusal the next command is judged as if nothing had come between.
#[test]
fn refusals_leave_no_trace() {
    let mut composing = Composing::with_buffer(29);
    for call in of_sheet(&bytes(SHEET_A)) {
        for command in 0..=255 {
            // These have no operand that could be out of range.
            if !matches!(command, WORD | TASK | BEGIN | END) {
                assert_ne!(composing.number(command, &[u32::MAX; 9]), 0);
            }
        }
        assert_eq!(composing.call(&call).number, 0);
    }
    assert_eq!(composing.buffer, bytes(SHEET_A));
}

/// Document 02 to the letter: what the reader answers to the filled bytes and the command. If it is
/// taken, the reader misses only END.
#[test]
fn the_reader_agrees() {
    let mut by_number = [0; 12];
    for index in 0..600 {
        let mut random = Random::new(SEED, index);
        let calls = with_faults(&mut random);
        let mut composing = Composing::with_buffer(random.pick(&[60, 400, 5000]));
        for call in calls {
            let before = composing.buffer[..composing.builder.filled()].to_vec();
            let ended = composing.builder.ended();
            let answer = composing.call(&call);
            by_number[usize::from(answer.number)] += 1;
            let command = match call.bytes() {
                Some(bytes) => bytes,
                None if ended || widths(call.command).is_none() => vec![call.command],
                // A too wide operand has no bytes that the reader could be asked about.
                None => {
                    assert!(matches!(answer.number, 4..=6));
                    continue;
                }
            };
            let read = sheet(&[before, command]);
            let is_good = [refusal(0, 0), refusal(2, read.len())].contains(&check(&read));
            match answer.number {
                0 => assert!(is_good),
                11 => assert!(is_good && read.len() > composing.buffer.len()),
                _ => assert_eq!(answer, check(&read), "{call:?}"),
            }
        }
    }
    for number in [0, 1, 3, 4, 5, 6, 7, 8, 11] {
        assert!(by_number[number] > 50, "{by_number:?}");
    }
    assert_eq!((by_number[2], by_number[9], by_number[10]), (0, 0, 0));
}
