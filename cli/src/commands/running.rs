//! check, run and explain: the engine's answer itself.

use simulator::sheet::parse;
use tools::report::explained;

use crate::arguments::Given;
use crate::engine::engine;
use crate::failure::{meaning, Failure};
use crate::sheet::Sheet;
use crate::words::counted;

pub fn check(given: &Given) -> Result<(), Failure> {
    let limit = given.limit()?;
    let sheet = Sheet::read(given)?;
    sheet.check(&limit)?;
    let line = format!("{}: {}\n", accepted(), contents(&sheet.bytes));
    sheet.write(given, line.as_bytes())
}

fn accepted() -> &'static str {
    match engine().is_proved() {
        true => "accepted",
        false => "accepted (NOT PROVED)",
    }
}

/// What an accepted sheet has.
fn contents(bytes: &[u8]) -> String {
    let Ok(sheet) = parse(bytes) else { return counted(bytes.len(), "byte") };
    let counts = [
        counted(bytes.len(), "byte"),
        counted(sheet.words.len(), "word"),
        counted(sheet.blocks.len(), "block"),
        counted(sheet.bodies.len(), "task"),
        format!("{} in tasks", counted(sheet.commands.len(), "command")),
        counted(sheet.releases.len(), "release"),
    ];
    counts.join(", ")
}

pub fn run(given: &Given) -> Result<(), Failure> {
    let limit = given.limit()?;
    let sheet = Sheet::read(given)?;
    let report = engine().run(&sheet.bytes, limit.ticks);
    sheet.write(given, &report.map_err(|answer| sheet.refused(answer, &limit))?)
}

pub fn explain(given: &Given) -> Result<(), Failure> {
    let limit = given.limit()?;
    let sheet = Sheet::read(given)?;
    let report = engine().run(&sheet.bytes, limit.ticks).map_err(|answer| {
        let mut failure = sheet.refused(answer, &limit);
        if let Failure::Refused(refusal) = &mut failure {
            refusal.meaning = Some(meaning(answer.number));
        }
        failure
    })?;
    let names = sheet.names_with(given)?;
    let text = explained(&String::from_utf8_lossy(&report), &names, limit.ticks);
    let label = match engine().is_proved() {
        true => String::new(),
        false => format!("{}\n", engine().note()),
    };
    sheet.write(given, format!("{label}{text}").as_bytes())
}
