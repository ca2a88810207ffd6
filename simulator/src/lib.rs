//! The second simulator of the exchange engine: document 01 and changes 1 to 5 and 7 of document 02 in
//! plain Rust, with no part shared. Changes 5 and 7 change no report: COMMIT tries every block number
//! here, and the ticks of an exchange are those of document 01's statements.
//!
//! `sheet` reads a sheet, `builder` composes one, `machine` runs it with `releases`, `reading`,
//! `exchange` and `transaction`, `report` prints the end. `history` observes a run, with the `span` of
//! each operation and the `tally` of what each exchange did; `plain` checks it as whole operations,
//! `drops` and `lost` check the counts of dropped releases and of lost attempts, `gathered` what COMMITs
//! gather, `exact_ticks` the ticks of exchanges.
//! `generator` makes cases from `contention` (good sheets, with `bursts` of releases, releases inside
//! `attempts` and `wide` transactions) and `damage` (bad ones); `coverage`, `waiting_coverage`,
//! `drop_coverage`, `lost_coverage`, `touched_coverage` and `tally_coverage` count them. `compositions`
//! makes lists of commands for the builder. `write` is for sheets in the code of tests and generators.

pub mod attempts;
pub mod builder;
pub mod bursts;
pub mod compositions;
pub mod contention;
pub mod coverage;
pub mod damage;
pub mod drop_coverage;
pub mod drops;
pub mod exact_ticks;
pub mod exchange;
pub mod gathered;
pub mod generator;
pub mod history;
pub mod lost;
pub mod lost_coverage;
pub mod machine;
pub mod observer;
pub mod plain;
pub mod random;
pub mod reading;
pub mod releases;
pub mod report;
pub mod sheet;
pub mod span;
pub mod tally;
pub mod tally_coverage;
pub mod touched_coverage;
pub mod transaction;
pub mod waiting_coverage;
pub mod wide;
pub mod write;

use machine::Machine;
use observer::{NoObserver, Observer};

/// The largest tick limit that is not turned down.
pub const TOP_LIMIT: u64 = 65_535;

/// Number 0 and the report's length (a check: 0), or the number and place of a refusal.
#[derive(Clone, Copy, Debug, PartialEq, Eq)]
pub struct Answer {
    pub number: u8,
    pub place: usize,
}

impl From<sheet::Fault> for Answer {
    fn from(fault: sheet::Fault) -> Answer {
        Answer { number: fault.number, place: fault.place }
    }
}

/// Is the sheet well formed?
pub fn check(sheet: &[u8]) -> Answer {
    match sheet::parse(sheet) {
        Ok(_) => Answer { number: 0, place: 0 },
        Err(fault) => fault.into(),
    }
}

/// Runs the sheet for at most `limit` ticks and writes the report to the front of the buffer.
pub fn run(sheet: &[u8], limit: u64, buffer: &mut [u8]) -> Answer {
    match run_observed(sheet, limit, &mut NoObserver) {
        Ok(report) => report::deliver(report.as_bytes(), buffer),
        Err(refusal) => refusal,
    }
}

/// Runs the sheet, lets the observer see every tick, and returns the report.
pub fn run_observed<O: Observer>(
    sheet: &[u8],
    limit: u64,
    observer: &mut O,
) -> Result<String, Answer> {
    let sheet = sheet::parse(sheet)?;
    if limit > TOP_LIMIT {
        return Err(Answer { number: 9, place: 0 });
    }
    let mut machine = Machine::new(&sheet);
    machine.run(limit as u32, observer);
    Ok(report::render(&machine))
}
