//! The one table of subcommands and options: arguments are read by it, and help is written from it.

use crate::arguments::Given;
use crate::commands;
use crate::failure::Failure;

/// An option.
#[derive(Debug, PartialEq, Eq)]
pub struct Choice {
    pub long: &'static str,
    pub short: Option<&'static str>,
    /// What stands behind it, if something does.
    pub value: Option<&'static str>,
    pub meaning: &'static str,
}

const fn flag(long: &'static str, meaning: &'static str) -> Choice {
    Choice { long, short: None, value: None, meaning }
}

const fn with_value(long: &'static str, value: &'static str, meaning: &'static str) -> Choice {
    Choice { long, short: None, value: Some(value), meaning }
}

const fn short(short: &'static str, choice: Choice) -> Choice {
    Choice { short: Some(short), ..choice }
}

pub const LIMIT: Choice =
    with_value("--limit", "N", "do at most N ticks, 0 to 65535 (without it: 65535)");
pub const OUTPUT: Choice =
    short("-o", with_value("--output", "FILE", "write to FILE, not to standard output"));
pub const TEXT: Choice = flag("--text", "take the sheet for text, whatever its first byte is");
pub const BYTES: Choice = flag("--bytes", "take the sheet for bytes, whatever its first byte is");
pub const QUIET: Choice = short("-q", flag("--quiet", "do not say which engine answered"));
pub const HELP: Choice = short("-h", flag("--help", "print this help"));
pub const VERSION: Choice = short("-V", flag("--version", "print the version"));

pub const HTML: Choice = flag("--html", "a page to scroll, zoom and point at, not an SVG picture");
pub const FIRST: Choice = with_value("--first", "TICK", "begin with this tick (without it: 0)");
pub const LAST: Choice =
    with_value("--last", "TICK", "end with this tick (without it: 300 ticks are drawn)");
pub const BAND: Choice = with_value("--band", "N", "N ticks side by side (without it: 60)");
pub const TITLE: Choice =
    with_value("--title", "TEXT", "the title (without it: the sheet's file name)");
pub const NAME: Choice =
    with_value("--name", "t4=guard", "a name for a task, word (w0) or block (b0); may be repeated");
pub const CSV: Choice =
    flag("--csv", "comma-separated lines, one for an operation (as without it)");
pub const JSON: Choice = flag("--json", "JSON");

/// Every subcommand takes these.
pub const COMMON: [&Choice; 7] = [&LIMIT, &OUTPUT, &TEXT, &BYTES, &QUIET, &HELP, &VERSION];

pub struct Subcommand {
    pub name: &'static str,
    /// What it does, in one line.
    pub summary: &'static str,
    /// What else there is to know.
    pub more: &'static str,
    pub example: &'static str,
    /// The options that it takes beside the common ones.
    pub own: &'static [&'static Choice],
    /// Does it say on standard error which engine answered?
    pub says_who: bool,
    pub does: fn(&Given) -> Result<(), Failure>,
}

impl Subcommand {
    pub fn choices(&self) -> impl Iterator<Item = &'static Choice> {
        self.own.iter().chain(&COMMON).copied()
    }
}

pub static SUBCOMMANDS: [Subcommand; 8] = [
    Subcommand {
        name: "check",
        summary: "say whether the sheet is good; if it is refused, why and where",
        more: "Prints one line with what the sheet has.",
        example: "hizgrael check room.txt",
        own: &[],
        says_who: true,
        does: commands::check,
    },
    Subcommand {
        name: "run",
        summary: "run the sheet and print its report",
        more: "Prints the report, byte for byte, and nothing else.",
        example: "hizgrael run --limit 1000 room.txt",
        own: &[],
        says_who: true,
        does: commands::run,
    },
    Subcommand {
        name: "explain",
        summary: "run the sheet and print its report with what each number means",
        more: "If the sheet is refused, the refusal's number is explained.",
        example: "hizgrael explain room.txt",
        own: &[&NAME],
        says_who: true,
        does: commands::explain,
    },
    Subcommand {
        name: "chart",
        summary: "draw the run tick by tick, as SVG or as a page for a browser",
        more: "It is drawn from the second simulator's history, and only if the proved engine gives\n\
               the same report, byte for byte; the picture says so.",
        example: "hizgrael chart --html -o room.html room.txt",
        own: &[&HTML, &FIRST, &LAST, &BAND, &TITLE, &NAME],
        says_who: false,
        does: commands::chart,
    },
    Subcommand {
        name: "history",
        summary: "list the operations of the run, each with its place in their order",
        more: "It is listed from the second simulator's history, and only if the proved engine gives\n\
               the same report, byte for byte; the list says so.",
        example: "hizgrael history --csv -o room.csv room.txt",
        own: &[&CSV, &JSON, &NAME],
        says_who: false,
        does: commands::history,
    },
    Subcommand {
        name: "encode",
        summary: "turn the sheet into bytes",
        more: "A sheet that is refused is written all the same, with status 1.",
        example: "hizgrael encode -o room.sheet room.txt",
        own: &[],
        says_who: false,
        does: commands::encode,
    },
    Subcommand {
        name: "decode",
        summary: "turn the sheet into text with comments",
        more: "A sheet that is refused is written all the same, with status 1.\n\
               What is no command becomes BYTE lines.",
        example: "hizgrael decode room.sheet",
        own: &[],
        says_who: false,
        does: commands::decode,
    },
    Subcommand {
        name: "build",
        summary: "hand the commands one after another to the library's sheet builder",
        more: "Stops at the first command that is refused. Only a whole sheet is written.",
        example: "hizgrael build -o room.sheet room.txt",
        own: &[],
        says_who: false,
        does: commands::build,
    },
];

pub fn subcommand(name: &str) -> Option<&'static Subcommand> {
    SUBCOMMANDS.iter().find(|row| row.name == name)
}
