//! The proved library's builder against the second one: number, place, state and every byte of the buffer, call by call.
//!
//! `COMPARE_SEED` and `COMPARE_CASES` run another or a larger corpus.

mod shared;

use hizgrael::{Answer, LONGEST_SHEET};
use shared::{setting, Both, AROUND, CASES};
use simulator::builder::{widths, Call};
use simulator::compositions::{at_edges, of_sheet, with_faults};
use simulator::contention::Style;
use simulator::damage::at_ceilings;
use simulator::generator::{case, valid_sheet, SEED};
use simulator::random::Random;
use simulator::write::*;

/// A list of commands with faults takes as long as several sheets.
const CASES_FOR_A_LIST: u64 = 4;

/// A sheet's own commands give its own bytes if it is good. Else they are taken up to the fault, which has the check's number and
/// place; of a sheet that is cut short, all whole ones are taken.
#[test]
fn every_sheet_of_the_corpus() {
    let seed = setting("COMPARE_SEED", SEED);
    let cases = setting("COMPARE_CASES", CASES);
    let mut by_number = [0u64; 9];
    for index in 0..cases {
        let sheet = case(seed, index).sheet;
        let checked = hizgrael::check(&sheet);
        by_number[usize::from(checked.number)] += 1;
        let mut both = Both::with_buffer(sheet.len());
        let calls = of_sheet(&sheet);
        let fault = calls.iter().map(|call| both.call(call)).find(|answer| answer.number != 0);
        let context = format!("case {index} of seed {seed}");
        match checked.number {
            0 => assert!(fault.is_none() && *both.filled() == *sheet, "{context}"),
            2 => {
                assert!(fault.is_none(), "{context}");
                assert!(*both.filled() == sheet[..checked.place as usize], "{context}");
            }
            _ => {
                assert_eq!(fault, Some(checked), "{context}");
                assert!(*both.filled() == sheet[..checked.place as usize], "{context}");
            }
        }
        assert!(checked.number != 0 || hizgrael::check(both.filled()) == checked, "{context}");
    }
    println!("{cases} sheets of seed {seed}, by number: {by_number:?}");
    if cases >= CASES {
        assert!(by_number.iter().all(|&count| count > 0), "every answer occurs: {by_number:?}");
    }
}

/// Lists with faulty commands among the good ones and after END, in buffers large and small; a part of each list from a kept state again.
#[test]
fn lists_with_faults() {
    let seed = setting("COMPARE_SEED", SEED);
    let lists = setting("COMPARE_CASES", CASES) / CASES_FOR_A_LIST;
    let mut by_number = [0u64; 12];
    for index in 0..lists {
        let mut random = Random::new(seed, index);
        let calls = with_faults(&mut random);
        let length = random.pick(&[0, 7, 60, 200, 1000, LONGEST_SHEET]);
        let mut both = Both::with_buffer(random.within(length / 2, length));
        let mut taken = Vec::new();
        let keep_at = random.below(calls.len());
        let mut kept = both.clone();
        for (number, call) in calls.iter().enumerate() {
            if number == keep_at {
                kept = both.clone();
            }
            let before = both.filled().to_vec();
            let ended = both.second.ended();
            let answer = both.call(call);
            by_number[usize::from(answer.number)] += 1;
            if answer.number == 0 {
                taken.push((call.command, call.own_operands().to_vec()));
            }
            if random.percent(25) {
                assert_as_read(before, ended, call, answer);
            }
        }
        // The filled bytes hold the very commands that were taken.
        let found = of_sheet(both.filled());
        let found: Vec<_> =
            found.iter().map(|call| (call.command, call.own_operands().to_vec())).collect();
        assert_eq!(found, taken, "list {index} of seed {seed}");
        for call in &calls[keep_at..] {
            let _ = kept.call(call);
        }
        assert!(kept.buffer == both.buffer && kept.state == both.state, "list {index}");
    }
    println!("{lists} lists of seed {seed}, by number: {by_number:?}");
    let never = [2, 9, 10];
    assert!(never.iter().all(|&number| by_number[number] == 0), "{by_number:?}");
    if lists >= CASES / CASES_FOR_A_LIST {
        let mut occur = (0..12).filter(|number| !never.contains(number));
        assert!(occur.all(|number| by_number[number] > 0), "{by_number:?}");
    }
}

/// Wherever another kind of command begins in sheets at the ceilings and in others: every command with operands at the edges.
#[test]
fn every_command_between_two_kinds() {
    let others = (0..12).map(|index| {
        valid_sheet(
            &mut Random::new(SEED, index),
            Style::SHORT[index as usize % Style::SHORT.len()],
        )
    });
    let (mut by_number, mut too_wide) = ([0u64; 12], [0u64; 12]);
    for sheet in at_ceilings(0).into_iter().chain(others) {
        let calls = of_sheet(&sheet);
        let mut both = Both::with_buffer(sheet.len() + 3);
        let mut last = None;
        for call in calls.iter().map(Some).chain([None]) {
            if last != call.map(|call| call.command) {
                for other in &at_edges() {
                    let number = usize::from(both.clone().call(other).number);
                    by_number[number] += 1;
                    too_wide[number] += u64::from(other.bytes().is_none());
                }
            }
            last = call.map(|call| call.command);
            assert!(call.is_none_or(|call| both.call(call).number == 0));
        }
    }
    println!("by number: {by_number:?}, of them with an operand too wide: {too_wide:?}");
    assert!([0, 1, 3, 4, 5, 6, 7, 8, 11].iter().all(|&number| by_number[number] > 0));
    assert!([3, 4, 5, 6].iter().all(|&number| too_wide[number] > 0));
}

/// Document 02 to the letter: the answer is the library's own reader's, to the filled bytes and the command.
fn assert_as_read(mut bytes: Vec<u8>, ended: bool, call: &Call, answer: Answer) {
    match call.bytes() {
        Some(command) => bytes.extend(command),
        None if ended || widths(call.command).is_none() => bytes.push(call.command),
        // A too wide operand has no bytes; 4 and 5 go before its 6.
        None => return assert!(matches!(answer.number, 4..=6), "{call:?}"),
    }
    let read = hizgrael::check(&bytes);
    match answer.number {
        0 | 11 => assert!(read.number == 0 || (read.number, read.place) == (2, bytes.len() as u64)),
        _ => assert_eq!(answer, read, "{call:?}"),
    }
}

/// The first command that does not fit is refused as 11 where the filled bytes end, those before it are taken, and shorter ones that
/// follow are judged by what is filled.
#[test]
fn buffers_of_every_length() {
    for index in 0..40 {
        let style = if index < 30 { Style::Tiny } else { Style::Mixed };
        let sheet = valid_sheet(&mut Random::new(SEED, index), style);
        let calls = of_sheet(&sheet);
        for length in 0..=sheet.len() {
            let mut both = Both::with_buffer(length);
            let mut ends = calls.iter().scan(0, |end, call| {
                *end += call.bytes().expect("a good sheet's command").len();
                Some(*end)
            });
            let fits = ends.by_ref().take_while(|&end| end <= length).last().unwrap_or(0);
            let refusal =
                calls.iter().map(|call| both.call(call)).find(|answer| answer.number != 0);
            let expected = Answer { number: 11, place: fits as u64 };
            assert_eq!(refusal, (length < sheet.len()).then_some(expected), "length {length}");
            for call in &calls {
                let _ = both.call(call);
            }
        }
    }
}

/// After 11 the filled bytes may go on in a longer buffer, here always by one byte.
#[test]
fn a_buffer_that_grows() {
    for index in 0..200 {
        let style = Style::SHORT[index as usize % Style::SHORT.len()];
        let sheet = valid_sheet(&mut Random::new(SEED, index), style);
        let mut both = Both::with_buffer(0);
        let mut length = 0;
        for call in of_sheet(&sheet) {
            for _ in 0..call.bytes().expect("a good sheet's command").len() {
                assert_eq!(both.call(&call).number, 11);
                length += 1;
                both.lend(length);
            }
            assert_eq!(both.call(&call).number, 0);
        }
        assert!(*both.filled() == *sheet);
    }
}

/// No byte is free in a buffer shorter than what is filled; the reader's faults go before that.
#[test]
fn a_buffer_that_shrinks() {
    for index in 0..30 {
        let sheet = valid_sheet(&mut Random::new(SEED, index), Style::Tiny);
        let mut calls = of_sheet(&sheet);
        let end = calls.pop().expect("a good sheet has END");
        let mut both = Both::with_buffer(sheet.len());
        assert!(calls.iter().all(|call| both.call(call).number == 0));
        for length in 0..sheet.len() {
            let mut shorter = both.clone();
            shorter.lend(length);
            let refused = |number| Answer { number, place: sheet.len() as u64 - 1 };
            assert_eq!(shorter.call(&end), refused(11));
            assert_eq!(shorter.call(&calls[0]), refused(4));
            assert_eq!(shorter.call(&Call::new(0xFF, &[])), refused(1));
        }
    }
}

#[test]
fn after_end_every_command_gets_3() {
    let sheet = valid_sheet(&mut Random::new(SEED, 0), Style::Tiny);
    for free in [0, 100] {
        let mut both = Both::with_buffer(sheet.len() + free);
        assert!(of_sheet(&sheet).iter().all(|call| both.call(call).number == 0));
        for command in 0..=255 {
            for operands in [[0; 9], [1; 9], [u32::MAX; 9]] {
                let answer = both.call(&Call { command, operands });
                assert_eq!((answer.number, answer.place), (3, sheet.len() as u64));
            }
        }
    }
}

/// A sheet at every ceiling, of the longest commands: it fills a buffer of the longest sheet's length, and no shorter one.
#[test]
fn the_longest_sheet() {
    let body: Bytes = (0..64).flat_map(|number| load(number % 8, u32::MAX)).collect();
    let bodies = sheet(&[task(), body]).repeat(8);
    let releases: Bytes = (0..256).flat_map(|tick| release(tick, 7)).collect();
    let declared = [word(1).repeat(32), block(16_777_215, [u32::MAX; 8]).repeat(16)];
    let longest = sheet(&[sheet(&declared), bodies, releases, end()]);
    assert_eq!(longest.len(), LONGEST_SHEET);
    let mut both = Both::with_buffer(LONGEST_SHEET);
    assert!(of_sheet(&longest).iter().all(|call| both.call(call).number == 0));
    let mut shorter = Both::with_buffer(LONGEST_SHEET - 1);
    let last = of_sheet(&longest).iter().map(|call| shorter.call(call)).last();
    assert_eq!(last, Some(Answer { number: 11, place: LONGEST_SHEET as u64 - 1 }));
}

/// A state that no call left: the call returns, a refusal changes nothing, and a taken command only the bytes that it says it filled.
#[test]
fn states_that_no_call_left() {
    let mut by_number = [0u64; 12];
    for index in 0..20_000 {
        let mut random = Random::new(SEED, index);
        let mut both = Both::with_buffer(random.pick(&[0, 1, 40, 300, 5000]));
        for call in of_sheet(&valid_sheet(&mut random, Style::Tiny)).iter().take(index as usize % 9)
        {
            let _ = both.call(call);
        }
        // Some of the bytes, or all.
        for byte in &mut both.state[AROUND..][..64] {
            if index % 2 == 0 || random.percent(10) {
                let any = random.next_number() as u8;
                *byte = random.pick(&[0, 1, 8, 255, any]);
            }
        }
        for call in with_faults(&mut random).iter().take(12) {
            let Both { state, buffer: before, .. } = both.clone();
            let answer = both.call_library(call);
            by_number[usize::from(answer.number)] += 1;
            if answer.number == 0 {
                let end = AROUND + answer.place as usize;
                let operands: usize = widths(call.command).expect("a command").iter().sum();
                let start = end - 1 - operands;
                assert!(end <= before.len() - AROUND);
                assert!(both.buffer[..start] == before[..start]);
                assert!(both.buffer[end..] == before[end..]);
            } else {
                assert!(both.state == state && both.buffer == before);
            }
        }
    }
    println!("calls with a state that no call left, by number: {by_number:?}");
}
