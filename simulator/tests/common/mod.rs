//! What several test files use: runs with a report as text, and the tasks of document 01's cases.
#![allow(dead_code)]

mod lines;

use std::fs;
use std::path::Path;

pub use lines::*;
use simulator::write::*;
use simulator::{run, Answer};

pub const LIMIT: u64 = 65_535;

pub fn refusal(number: u8, place: usize) -> Answer {
    Answer { number, place }
}

pub fn bytes(hexadecimal: &str) -> Bytes {
    let byte = |text| u8::from_str_radix(text, 16).unwrap();
    hexadecimal.split_whitespace().map(byte).collect()
}

/// A sheet of examples/worked.
pub fn worked(name: &str) -> Bytes {
    let folder = Path::new(env!("CARGO_MANIFEST_DIR")).join("../examples/worked");
    fs::read(folder.join(format!("{name}.sheet"))).unwrap()
}

/// Document 01's small inputs for refusals 1 to 8, each with its number and place.
pub fn refusal_rows() -> [(Bytes, Answer); 9] {
    [
        (bytes("FF"), refusal(1, 0)),
        (bytes("01 00 00"), refusal(2, 0)),
        (bytes(""), refusal(2, 0)),
        (bytes("03 10 00 00 00 00 05 05 00"), refusal(3, 8)),
        (bytes("05"), refusal(4, 0)),
        (bytes("01 00 00 00 00").repeat(33), refusal(5, 160)),
        (bytes("03 11 08 00"), refusal(6, 1)),
        (bytes("01 00 00 00 00 03 13 00 00 01 13 00 00 01"), refusal(7, 10)),
        (bytes("03 11 00 00 04 00 02 00 04 00 01 00"), refusal(8, 8)),
    ]
}

/// The report of a sheet that must be accepted.
pub fn report_with_limit(sheet: &[u8], limit: u64) -> String {
    let mut buffer = vec![0; 8192];
    let answer = run(sheet, limit, &mut buffer);
    assert_eq!(answer.number, 0, "turned down at {}", answer.place);
    String::from_utf8(buffer[..answer.place].to_vec()).unwrap()
}

pub fn report(sheet: &[u8]) -> String {
    report_with_limit(sheet, LIMIT)
}

pub fn word_value(report: &str, word: u8) -> u32 {
    numbers(report, &format!("W {word}"))[0]
}

pub fn registers(report: &str, task: u8) -> Vec<u32> {
    numbers(report, &format!("R {task}"))
}

/// Task 0 of the P cases: 12 becomes 5 in word 0.
pub fn task_of_sheet_a() -> Bytes {
    sheet(&[task(), load(1, 12), load(2, 5), pair(0, 1, 2), swap(0)])
}

/// Task 1 of the P cases: 12 becomes 7 in word 0.
pub fn rival() -> Bytes {
    sheet(&[task(), load(1, 12), load(2, 7), pair(0, 1, 2), swap(0)])
}

/// Task U: adds 1 to the first value of block 0.
pub fn task_u() -> Bytes {
    let body = [begin(), get(0, 0, 0), load(1, 1), add(0, 1), put(0, 0, 0), commit()];
    sheet(&[task(), sheet(&body)])
}

/// The report of sheet A's task in a run without an idle tick, when the word is 5.
pub fn report_of_sheet_a(task: TaskLine, registers: [u32; 3]) -> String {
    let [r0, r1, r2] = registers;
    let registers = format!("R 0 {r0} {r1} {r2} 0 0 0 0 0\n");
    format!("W 0 5\n{}{registers}{}", task.written(0), end_line(task.ticks))
}

/// Sheet A with these releases beside the one at tick 0.
pub fn sheet_a_with(ticks: &[u16]) -> Bytes {
    let more: Bytes = ticks.iter().flat_map(|&tick| release(tick, 0)).collect();
    sheet(&[word(12), task_of_sheet_a(), release(0, 0), more, end()])
}
