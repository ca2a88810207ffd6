//! The help texts, made from the table.

use crate::engine::engine;
use crate::table::{Choice, Subcommand, COMMON, SUBCOMMANDS};

/// Where the meaning of an option or a subcommand begins.
const COLUMN: usize = 22;

/// What a user reads who gives no arguments.
pub fn usage() -> String {
    let names: Vec<&str> = SUBCOMMANDS.iter().map(|row| row.name).collect();
    format!("usage: hizgrael {} [options] SHEET\nsee 'hizgrael --help'", names.join("|"))
}

pub fn version() -> String {
    let by = match engine().is_proved() {
        true => "with the proved engine",
        false => "NOT PROVED: built without the proved library, so the second simulator answers",
    };
    format!("hizgrael {}, {by}\n", crate::VERSION)
}

pub fn program() -> String {
    let subcommands: String = SUBCOMMANDS.iter().map(|row| line(row.name, row.summary)).collect();
    format!(
        "Hizgrael is a proved engine that runs your tasks' sheets tick by tick and shows what they do to
shared memory. It is no scheduler for your board: it answers before there is one.

usage: hizgrael SUBCOMMAND [options] SHEET
       hizgrael help SUBCOMMAND

SHEET is a file, or - for standard input. Text and bytes are told apart by the first byte.

{subcommands}
Every subcommand takes:
{}
Status: 0 done; 1 refused, with number, place and reason; 2 not done, with the reason.
Example: hizgrael run examples/cold-room.txt
",
        choices(&COMMON)
    )
}

pub fn of(subcommand: &Subcommand) -> String {
    let Subcommand { name, summary, more, example, own, .. } = subcommand;
    let own = match own.is_empty() {
        true => String::new(),
        false => format!("{}\n", choices(own)),
    };
    format!(
        "hizgrael {name}: {summary}.
{more}

usage: hizgrael {name} [options] SHEET

{own}{}
Example: {example}
",
        choices(&COMMON)
    )
}

fn choices(choices: &[&Choice]) -> String {
    choices.iter().map(|choice| line(&written(choice), choice.meaning)).collect()
}

/// The option with its short form and its value.
fn written(choice: &Choice) -> String {
    let short = choice.short.map(|short| format!("{short}, ")).unwrap_or_default();
    let value = choice.value.map(|value| format!(" {value}")).unwrap_or_default();
    format!("{short}{}{value}", choice.long)
}

fn line(what: &str, meaning: &str) -> String {
    format!("  {what:COLUMN$}{meaning}\n")
}
