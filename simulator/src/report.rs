//! The report of a run, and its way into the caller's buffer.

use std::fmt::{Display, Write};

use crate::machine::{Counts, Machine};
use crate::sheet::Block;
use crate::transaction::{bank_word, store_of, version_of};
use crate::Answer;

/// The whole report as document 01 prints it, with each task's drops (change 2) and lost attempts
/// (change 3).
pub fn render(machine: &Machine) -> String {
    let mut report = contents(&words(machine), &blocks(machine));
    for task in 0..machine.sheet.bodies.len() {
        task_line(&mut report, task, machine.counts[task]);
        line(&mut report, "R", task, &machine.jobs[task].registers);
    }
    line(&mut report, "E", machine.tick, &[]);
    report
}

/// The W and B lines.
pub fn contents(words: &[u32], blocks: &[Block]) -> String {
    let mut report = String::new();
    for (number, &value) in words.iter().enumerate() {
        line(&mut report, "W", number, &[value]);
    }
    for (number, block) in blocks.iter().enumerate() {
        let mut numbers = vec![block.version];
        numbers.extend_from_slice(&block.values);
        line(&mut report, "B", number, &numbers);
    }
    report
}

fn words(machine: &Machine) -> Vec<u32> {
    let declared = &machine.words[..machine.sheet.words.len()];
    declared.iter().map(|&word| machine.current_value(word)).collect()
}

fn blocks(machine: &Machine) -> Vec<Block> {
    let block = |number| {
        let bank = machine.current_value(machine.words[bank_word(number)]);
        let values = machine.stores[store_of(bank)];
        Block { version: version_of(bank), values }
    };
    (0..machine.sheet.blocks.len()).map(block).collect()
}

fn task_line(report: &mut String, task: usize, counts: Counts) {
    let Counts { finished, spent, lost, ticks, dropped } = counts;
    line(report, "T", task, &[finished, spent, lost, ticks, dropped]);
}

fn line(report: &mut String, letter: &str, first: impl Display, numbers: &[u32]) {
    // Writing into a String cannot fail.
    let _ = write!(report, "{letter} {first}");
    for number in numbers {
        let _ = write!(report, " {number}");
    }
    report.push('\n');
}

/// Hands the report over, or turns the call down with number 10 and leaves the buffer as it is.
pub fn deliver(report: &[u8], buffer: &mut [u8]) -> Answer {
    let place = report.len();
    match buffer.get_mut(..place) {
        Some(room) => {
            room.copy_from_slice(report);
            Answer { number: 0, place }
        }
        None => Answer { number: 10, place },
    }
}
