//! Prints what the corpus covers, checks whole operations, drops, lost attempts, gathered blocks and
//! the ticks of exchanges over it, or exports small cases.
//!
//! corpus                        the default corpus
//! corpus SEED COUNT             another one
//! corpus --export COUNT [SEED]  one line a case: sheet, limit, buffer length, fill, number, place,
//!                               buffer afterwards; bytes in hexadecimal, `-` for none

use std::process::ExitCode;

use simulator::coverage::Coverage;
use simulator::drops::drops_counted;
use simulator::exact_ticks::exact_ticks_hold;
use simulator::gathered::gathered_rising;
use simulator::generator::{case, Case, CASES, SEED};
use simulator::history::{run_with_history, Exchange};
use simulator::lost::lost_counted;
use simulator::machine::Machine;
use simulator::observer::NoObserver;
use simulator::plain::whole_operations;
use simulator::{run, sheet, TOP_LIMIT};

/// What an exported case may have at most, so that a slow evaluator can follow it.
const EXPORT_SHEET: usize = 400;
const EXPORT_TICKS: u32 = 400;
const EXPORT_BUFFER: usize = 1000;

fn main() -> ExitCode {
    let arguments: Vec<String> = std::env::args().skip(1).collect();
    let is_export = arguments.first().is_some_and(|first| first == "--export");
    let numbers = arguments.iter().skip(usize::from(is_export)).map(|text| text.parse());
    let Ok(numbers) = numbers.collect::<Result<Vec<u64>, _>>() else {
        eprintln!("corpus [SEED COUNT] or corpus --export COUNT [SEED]");
        return ExitCode::from(2);
    };
    match (is_export, numbers.as_slice()) {
        (false, []) => cover(SEED, CASES),
        (false, &[seed, count]) => cover(seed, count),
        (true, &[count]) => export(SEED, count),
        (true, &[count, seed]) => export(seed, count),
        _ => {
            eprintln!("corpus [SEED COUNT] or corpus --export COUNT [SEED]");
            ExitCode::from(2)
        }
    }
}

fn cover(seed: u64, count: u64) -> ExitCode {
    let mut coverage = Coverage::new();
    for index in 0..count {
        let case = case(seed, index);
        coverage.take(&case);
        let checked = whole_operations(&case.sheet, case.limit)
            .and_then(|()| drops_counted(&case.sheet, case.limit))
            .and_then(|()| lost_counted(&case.sheet, case.limit))
            .and_then(|()| gathered_rising(&case.sheet, case.limit))
            .and_then(|()| exact_ticks_hold(&case.sheet, case.limit));
        if let Err(fault) = checked {
            println!("case {index} of seed {seed}: {fault}");
            return ExitCode::FAILURE;
        }
    }
    print!("{coverage}");
    ExitCode::SUCCESS
}

fn export(seed: u64, count: u64) -> ExitCode {
    let lines = (0..).map(|index| case(seed, index)).filter_map(|case| line(&case));
    for line in lines.take(count as usize) {
        println!("{line}");
    }
    ExitCode::SUCCESS
}

/// The case as a line, if it is small.
fn line(case: &Case) -> Option<String> {
    let is_small = case.sheet.len() <= EXPORT_SHEET
        && case.buffer_length <= EXPORT_BUFFER
        && ticks_done(case) <= EXPORT_TICKS;
    if !is_small {
        return None;
    }
    let mut buffer = case.buffer();
    let answer = run(&case.sheet, case.limit, &mut buffer);
    Some(format!(
        "{} {} {} {:02x} {} {} {} {}",
        hexadecimal(&case.sheet),
        case.limit,
        case.buffer_length,
        case.fill,
        answer.number,
        answer.place,
        hexadecimal(&buffer),
        exchanges(case),
    ))
}

/// Its exchanges: task, first and last tick (of one cut off the run's), own ticks and the five numbers of change 7.
fn exchanges(case: &Case) -> String {
    let Ok(sheet) = sheet::parse(&case.sheet) else { return "-".to_string() };
    let (machine, history) = run_with_history(&sheet, case.limit.min(TOP_LIMIT) as u32);
    let mut found = Vec::new();
    for operation in &history.operations {
        let numbers = |exchange: &Exchange| {
            let (span, tally) = (exchange.span, exchange.tally);
            let did = [tally.tried, tally.differed, tally.fetched, tally.marked, tally.failed];
            let last = span.last.unwrap_or(machine.tick - 1);
            let ticks = [operation.task as u32, span.first, last, span.own_ticks()];
            let numbers = ticks.iter().chain(&did).map(u32::to_string);
            numbers.collect::<Vec<String>>().join(",")
        };
        found.extend(operation.exchanges.iter().map(numbers));
    }
    if found.is_empty() {
        return "-".to_string();
    }
    found.join(";")
}

/// A refused call does no tick.
fn ticks_done(case: &Case) -> u32 {
    let Ok(sheet) = sheet::parse(&case.sheet) else { return 0 };
    if case.limit > TOP_LIMIT {
        return 0;
    }
    let mut machine = Machine::new(&sheet);
    machine.run(case.limit as u32, &mut NoObserver);
    machine.tick
}

fn hexadecimal(bytes: &[u8]) -> String {
    if bytes.is_empty() {
        return "-".to_string();
    }
    bytes.iter().map(|byte| format!("{byte:02x}")).collect()
}
