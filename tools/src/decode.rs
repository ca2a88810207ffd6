//! Bytes to text: the commands up to END with helpful comments, and what the check answers.

use std::fmt;

use crate::declared::Declared;
use crate::explain::verdict;
use crate::form::{row_of_byte, Operand, Row, BARE_BYTE};
use crate::names::Names;
use crate::recording::subject::Subject;

/// A command found in the bytes.
#[derive(Clone, Debug, PartialEq, Eq)]
pub struct Command {
    pub place: usize,
    pub row: &'static Row,
    pub operands: Vec<u32>,
}

impl Command {
    pub fn is(&self, word: &str) -> bool {
        self.row.word == word
    }

    /// The place after its last byte.
    pub fn end(&self) -> usize {
        self.place + 1 + self.row.width()
    }

    /// The command as the text form writes it.
    pub fn written(&self) -> String {
        self.written_with(&Names::default())
    }

    /// The same with these names in place of numbers.
    fn written_with(&self, names: &Names) -> String {
        let mut text = self.row.word.to_string();
        for (kind, &number) in self.row.operands.iter().zip(&self.operands) {
            text.push(' ');
            match kind.subject(number as usize).and_then(|subject| names.name(subject)) {
                Some(name) => text.push_str(name),
                None => text.push_str(&kind.written(number)),
            }
        }
        text
    }
}

/// Why no command can be read.
#[derive(Clone, Debug, PartialEq, Eq)]
pub struct ByteFault {
    pub place: usize,
    pub reason: String,
}

impl fmt::Display for ByteFault {
    fn fmt(&self, formatter: &mut fmt::Formatter<'_>) -> fmt::Result {
        write!(formatter, "place {}: {}", self.place, self.reason)
    }
}

/// The command that starts at this place. The place must lie before the end of the bytes.
pub fn command_at(bytes: &[u8], place: usize) -> Result<Command, ByteFault> {
    let fault = |reason| ByteFault { place, reason };
    let byte = bytes[place];
    let Some(row) = row_of_byte(byte) else {
        return Err(fault(format!("the byte {byte:02X} names no command")));
    };
    let Some(mut rest) = bytes.get(place + 1..place + 1 + row.width()) else {
        let (wanted, given) = (row.width(), bytes.len() - place - 1);
        return Err(fault(format!("{} is cut: {given} of {wanted} operand bytes", row.word)));
    };
    let mut operands = Vec::new();
    for kind in row.operands {
        let (front, back) = rest.split_at(kind.width());
        operands.push(front.iter().fold(0, |number, &byte| number << 8 | u32::from(byte)));
        rest = back;
    }
    Ok(Command { place, row, operands })
}

/// The commands from the first byte up to END, or up to the last byte if no END comes.
pub fn commands(bytes: &[u8]) -> Result<Vec<Command>, ByteFault> {
    match readable(bytes) {
        (commands, None) => Ok(commands),
        (_, Some(fault)) => Err(fault),
    }
}

/// The commands up to END as far as they can be read, and why no more.
fn readable(bytes: &[u8]) -> (Vec<Command>, Option<ByteFault>) {
    let mut commands: Vec<Command> = Vec::new();
    let mut place = 0;
    while place < bytes.len() && !commands.last().is_some_and(|last| last.is("END")) {
        match command_at(bytes, place) {
            Ok(command) => {
                place = command.end();
                commands.push(command);
            }
            Err(fault) => return (commands, Some(fault)),
        }
    }
    (commands, None)
}

/// The whole text. What is no command, and what follows END, becomes BYTE lines. Names that the text form
/// cannot have are left out.
pub fn decode(bytes: &[u8], names: &Names) -> String {
    let (commands, fault) = readable(bytes);
    let end = commands.last().map_or(0, Command::end);
    let mut writer = Writer::default();
    for command in &commands {
        writer.command(command, names);
    }
    let mut comment = fault.map_or(String::new(), |fault| fault.reason);
    for (place, byte) in bytes.iter().enumerate().skip(end) {
        writer.line(place, &format!("{BARE_BYTE} {byte}"), &comment);
        comment.clear();
    }
    let line_of = |place| writer.line_of(place);
    let answer = verdict(bytes, names, line_of).to_string();
    format!("{}# check: {answer}\n", writer.text)
}

/// Comments start at this column where the command leaves room.
const COMMENT_COLUMN: usize = 24;

/// The text so far, and what has been declared so far.
#[derive(Default)]
struct Writer {
    text: String,
    /// The place at which each line starts.
    places: Vec<usize>,
    declared: Declared,
    /// The names that stand in the text.
    written: Names,
}

impl Writer {
    fn command(&mut self, command: &Command, names: &Names) {
        let indent = if command.row.stands_in_body() { "  " } else { "" };
        let mut content = format!("{indent}{}", command.written_with(&self.written));
        let mut comment = String::new();
        if let Some(subject) = self.declared.declare(command.row) {
            comment = format!("{} {subject}", Operand::of(subject).0.name());
            if let Some(name) = names.name(subject).filter(|name| self.take(subject, name)) {
                content.push_str(&format!(" {name}"));
                comment = subject.to_string();
            }
        } else if let ("PAIR", [word, old, new]) = (command.row.word, &command.operands[..]) {
            comment = format!("w{word}: old in r{old}, new in r{new}");
        }
        self.line(command.place, &content, &comment);
    }

    /// Can the text have this name? It cannot if it is no name there, or is somebody else's.
    fn take(&mut self, subject: Subject, name: &str) -> bool {
        let line = self.places.len() + 1;
        let taken = self.declared.give(subject, name, line).is_ok();
        if taken {
            self.written.set(subject, name);
        }
        taken
    }

    fn line(&mut self, place: usize, content: &str, comment: &str) {
        self.places.push(place);
        if comment.is_empty() {
            self.text.push_str(content);
        } else {
            self.text.push_str(&format!("{content:COMMENT_COLUMN$}  # {comment}"));
        }
        self.text.push('\n');
    }

    fn line_of(&self, place: usize) -> Option<usize> {
        self.places.iter().position(|start| *start == place).map(|index| index + 1)
    }
}
