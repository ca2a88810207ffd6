//! Composes sheet A of document 01 through the proved library, command by command, runs it and prints its report.

use std::process::ExitCode;

use hizgrael::{Builder, Command, Refusal, LONGEST_SHEET, TOP_LIMIT};
use run_sheet::{ends, print, REFUSED};

const SHEET_A: [Command; 8] = [
    Command::Word { value: 12 },
    Command::Task,
    Command::Load { register: 1, value: 12 },
    Command::Load { register: 2, value: 5 },
    Command::Pair { word: 0, old: 1, new: 2 },
    Command::Swap { register: 0 },
    Command::Release { tick: 0, task: 0 },
    Command::End,
];

fn main() -> ExitCode {
    match report_of_sheet_a() {
        Ok(report) => print(&report),
        Err(refusal) => ends(REFUSED, refusal),
    }
}

fn report_of_sheet_a() -> Result<String, Refusal> {
    let mut buffer = [0; LONGEST_SHEET];
    let mut builder = Builder::new(&mut buffer);
    for command in SHEET_A {
        builder.compose(command)?;
    }
    hizgrael::report(builder.filled(), TOP_LIMIT)
}
