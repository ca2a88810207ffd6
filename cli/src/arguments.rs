//! The arguments, read by the table.

use std::ffi::{OsStr, OsString};
use std::os::unix::ffi::OsStrExt;

use tools::nearest::nearest;
use tools::quote::cut;

use crate::engine::TOP_LIMIT;
use crate::failure::{not_done, Failure};
use crate::help;
use crate::table::{subcommand, Choice, Subcommand, HELP, LIMIT, NAME, SUBCOMMANDS, VERSION};
use crate::words::quoted;

/// What a user asks for.
pub enum Asked {
    /// The help or the version.
    Text(String),
    Subcommand(Given),
}

/// A subcommand with what was given to it.
pub struct Given {
    pub subcommand: &'static Subcommand,
    /// A file, or `-`.
    pub sheet: OsString,
    options: Vec<(&'static Choice, OsString)>,
}

/// A limit of ticks, and how it was written.
#[derive(Clone, Debug, PartialEq, Eq)]
pub struct Limit {
    /// A number too large for 64 bits is above the top as well.
    pub ticks: u64,
    pub written: String,
}

pub fn asked(mut arguments: impl Iterator<Item = OsString>) -> Result<Asked, Failure> {
    let Some(first) = arguments.next() else {
        return Err(not_done(help::usage()));
    };
    if is(&first, &VERSION) {
        return Ok(Asked::Text(help::version()));
    }
    if is(&first, &HELP) || first == "help" {
        let Some(name) = arguments.next().filter(|_| first == "help") else {
            return Ok(Asked::Text(help::program()));
        };
        let help = help::of(named(&name)?);
        if arguments.next().is_some() {
            let reason = "help takes one subcommand; see 'hizgrael --help'";
            return Err(not_done(format!("hizgrael: {reason}")));
        }
        return Ok(Asked::Text(help));
    }
    if first.to_string_lossy().starts_with('-') && first != "-" {
        return Err(not_done(misplaced(&first)));
    }
    read(named(&first)?, arguments)
}

/// Is this the option, in its long or its short form?
fn is(argument: &OsStr, choice: &Choice) -> bool {
    argument == choice.long || choice.short.is_some_and(|short| argument == short)
}

fn named(name: &OsStr) -> Result<&'static Subcommand, Failure> {
    let found = name.to_str().and_then(subcommand);
    found.ok_or_else(|| {
        let names = SUBCOMMANDS.iter().map(|row| row.name);
        let hint = hint(nearest(&name.to_string_lossy(), names));
        not_done(format!(
            "hizgrael: {} is no subcommand{hint}; see 'hizgrael --help'",
            quoted(name)
        ))
    })
}

fn hint(nearest: Option<&str>) -> String {
    nearest.map(|word| format!(" (did you mean '{word}'?)")).unwrap_or_default()
}

/// An option where the subcommand should stand.
fn misplaced(option: &OsStr) -> String {
    let known = SUBCOMMANDS.iter().flat_map(Subcommand::choices).any(|choice| is(option, choice));
    let option = quoted(option);
    match known {
        true => format!("hizgrael: {option} comes after the subcommand; see 'hizgrael --help'"),
        false => format!("hizgrael: unknown option {option}; see 'hizgrael --help'"),
    }
}

fn read(
    subcommand: &'static Subcommand,
    mut arguments: impl Iterator<Item = OsString>,
) -> Result<Asked, Failure> {
    let mut given = Given { subcommand, sheet: OsString::new(), options: Vec::new() };
    let mut sheets = Vec::new();
    while let Some(argument) = arguments.next() {
        let text = argument.to_string_lossy();
        if text == "--" {
            sheets.extend(arguments.by_ref());
        } else if text == "-" || !text.starts_with('-') {
            sheets.push(argument);
        } else {
            given.take_option(&argument, &mut arguments)?;
        }
    }
    if given.has(&HELP) {
        return Ok(Asked::Text(help::of(subcommand)));
    }
    if given.has(&VERSION) {
        return Ok(Asked::Text(help::version()));
    }
    match <[OsString; 1]>::try_from(sheets) {
        Ok([sheet]) => Ok(Asked::Subcommand(Given { sheet, ..given })),
        Err(sheets) => Err(given.fault(&match sheets.get(1) {
            None => "no SHEET is given: a file, or - for standard input".to_string(),
            Some(second) => format!("one SHEET is taken, and {} is a second one", quoted(second)),
        })),
    }
}

impl Given {
    pub fn is_standard_input(&self) -> bool {
        self.sheet == "-"
    }

    pub fn has(&self, choice: &Choice) -> bool {
        self.value(choice).is_some()
    }

    pub fn value(&self, choice: &Choice) -> Option<&OsStr> {
        self.options.iter().find(|(taken, _)| *taken == choice).map(|(_, value)| value.as_os_str())
    }

    /// The values of an option that may be repeated.
    pub fn values<'a>(&'a self, choice: &'a Choice) -> impl Iterator<Item = &'a OsStr> {
        let given = self.options.iter().filter(move |(taken, _)| *taken == choice);
        given.map(|(_, value)| value.as_os_str())
    }

    /// The value as a message or a picture can show it.
    pub fn shown(&self, choice: &Choice) -> Option<String> {
        self.value(choice).map(|value| value.to_string_lossy().into_owned())
    }

    /// The number of ticks that an option gives.
    pub fn number(&self, choice: &Choice) -> Result<Option<u32>, Failure> {
        let Some(ticks) = self.ticks(choice)? else { return Ok(None) };
        let number = u32::try_from(ticks.ticks).map_err(|_| {
            let reason = format!("a run has at most {TOP_LIMIT} ticks");
            self.fault(&format!("{} {} is too large, {reason}", choice.long, ticks.written))
        });
        number.map(Some)
    }

    pub fn limit(&self) -> Result<Limit, Failure> {
        let top = Limit { ticks: TOP_LIMIT, written: TOP_LIMIT.to_string() };
        Ok(self.ticks(&LIMIT)?.unwrap_or(top))
    }

    fn ticks(&self, choice: &Choice) -> Result<Option<Limit>, Failure> {
        let Some(value) = self.value(choice) else { return Ok(None) };
        let text = value.to_string_lossy();
        if text.is_empty() || !text.bytes().all(|byte| byte.is_ascii_digit()) {
            let reason = format!("{}: {} is no number of ticks", choice.long, quoted(value));
            return Err(self.fault(&reason));
        }
        let ticks = text.parse().unwrap_or(u64::MAX);
        Ok(Some(Limit { ticks, written: cut(&text) }))
    }

    /// Not done, by a fault of the arguments.
    pub fn fault(&self, reason: &str) -> Failure {
        let name = self.subcommand.name;
        not_done(format!("hizgrael {name}: {reason}; see 'hizgrael {name} --help'"))
    }

    /// Takes `--option value`, `--option=value`, or an option without value.
    fn take_option(
        &mut self,
        argument: &OsStr,
        rest: &mut impl Iterator<Item = OsString>,
    ) -> Result<(), Failure> {
        let (option, attached) = parts(argument);
        let choice = self.subcommand.choices().find(|choice| is(option, choice));
        let choice = choice.ok_or_else(|| self.unknown(option))?;
        let value = match (choice.value, attached) {
            (None, None) => OsString::new(),
            (None, Some(_)) => return Err(self.fault(&format!("{} takes no value", choice.long))),
            (Some(_), Some(value)) => value.to_os_string(),
            (Some(kind), None) => rest.next().ok_or_else(|| {
                let option = option.to_string_lossy();
                self.fault(&format!("{option} takes a value, as in {option} {kind}"))
            })?,
        };
        if choice.value.is_some() && *choice != NAME && self.has(choice) {
            return Err(self.fault(&format!("{} is given twice", choice.long)));
        }
        self.options.push((choice, value));
        Ok(())
    }

    fn unknown(&self, option: &OsStr) -> Failure {
        let known = self.subcommand.choices().map(|choice| choice.long);
        let hint = hint(nearest(&option.to_string_lossy(), known));
        self.fault(&format!("unknown option {}{hint}", quoted(option)))
    }
}

/// What stands before and behind the first `=` of a long option. File names need not be UTF-8.
fn parts(argument: &OsStr) -> (&OsStr, Option<&OsStr>) {
    let bytes = argument.as_bytes();
    match bytes.iter().position(|byte| *byte == b'=') {
        Some(place) if bytes.starts_with(b"--") => {
            let (option, value) = (&bytes[..place], &bytes[place + 1..]);
            (OsStr::from_bytes(option), Some(OsStr::from_bytes(value)))
        }
        _ => (argument, None),
    }
}
