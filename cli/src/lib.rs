//! The program `hizgrael`, as a library so that its parts can be tested.
//!
//! `table` has the subcommands and options, `arguments` reads them, `help` writes them out. `input`
//! reads a sheet, `sheet` knows its bytes, lines and names, `output` writes. `engine` answers;
//! `compared` holds the second simulator to it before a history is drawn. `failure` is what ends with
//! status 1 or 2. `commands` has what each subcommand does.

pub mod arguments;
pub mod commands;
pub mod compared;
pub mod engine;
pub mod failure;
pub mod help;
pub mod input;
pub mod output;
pub mod sheet;
pub mod streams;
pub mod table;
pub mod words;

use std::ffi::OsString;
use std::io::{self, Write};
use std::process::ExitCode;

use arguments::{asked, Asked, Given};
use engine::engine;
use failure::Failure;
use table::QUIET;

/// The version that include/hizgrael.h defines.
pub const VERSION: &str = env!("HIZGRAEL_VERSION");

/// Does what the arguments ask for. Status 0: done. 1: refused. 2: not done.
pub fn run(arguments: impl Iterator<Item = OsString>) -> ExitCode {
    let outcome = match asked(arguments) {
        Ok(Asked::Text(text)) => output::to_standard_output(text.as_bytes()),
        Ok(Asked::Subcommand(given)) => return done(&given),
        Err(failure) => Err(failure),
    };
    status(&outcome)
}

fn done(given: &Given) -> ExitCode {
    let outcome = (given.subcommand.does)(given);
    let status = status(&outcome);
    let answered = !matches!(outcome, Err(Failure::NotDone(_)));
    // An answer that is not proved is labelled, however quiet the program should be.
    let says_who = given.subcommand.says_who && !given.has(&QUIET);
    if answered && (says_who || !engine().is_proved()) {
        tell(&engine().note());
    }
    status
}

/// The exit status; a failure is told.
fn status(outcome: &Result<(), Failure>) -> ExitCode {
    match outcome {
        Ok(()) => ExitCode::SUCCESS,
        Err(failure) => {
            tell(&failure.to_string());
            ExitCode::from(failure.status())
        }
    }
}

/// A line on standard error. If that is closed or full, there is nobody left to tell.
pub fn tell(line: &str) {
    let _ = io::stderr().write_all(format!("{line}\n").as_bytes());
}
