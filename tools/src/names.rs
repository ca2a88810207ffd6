//! Names of words, blocks and tasks: what a name may be in the text form, and who has which.

use std::collections::BTreeMap;

use crate::form::{is_command_word, Operand, NAMED};
use crate::quote::quoted;
use crate::recording::subject::Subject;

/// The longest name in the text form.
pub const LONGEST_NAME: usize = 32;

/// The names of words, blocks and tasks by their numbers.
#[derive(Clone, Debug, Default, PartialEq, Eq)]
pub struct Names {
    words: BTreeMap<usize, String>,
    blocks: BTreeMap<usize, String>,
    tasks: BTreeMap<usize, String>,
}

impl Names {
    /// Gives a name, in place of one that was there.
    pub fn set(&mut self, subject: Subject, name: &str) {
        let (names, number) = match subject {
            Subject::Word(number) => (&mut self.words, number),
            Subject::Block(number) => (&mut self.blocks, number),
            Subject::Task(number) => (&mut self.tasks, number),
        };
        names.insert(number, name.to_string());
    }

    /// Takes a text like `t4=guard`, for a name that is not given yet.
    pub fn add(&mut self, text: &str) -> Result<(), String> {
        let halves = text.split_once('=');
        let halves = halves.and_then(|(number, name)| Some((subject_of(number)?, name)));
        let Some((subject, name)) = halves else {
            return Err(format!("{} gives no name, as t4=guard does", quoted(text)));
        };
        if let Some(fault) = name_fault(name) {
            return Err(format!("{} is no name: {fault}", quoted(name)));
        }
        if self.name(subject).is_some() {
            return Err(format!("{subject} is named twice"));
        }
        self.set(subject, name);
        Ok(())
    }

    /// Takes the names of another, in place of those that were there.
    pub fn take(&mut self, other: Names) {
        self.words.extend(other.words);
        self.blocks.extend(other.blocks);
        self.tasks.extend(other.tasks);
    }

    pub fn name(&self, subject: Subject) -> Option<&str> {
        let name = match subject {
            Subject::Word(number) => self.words.get(&number),
            Subject::Block(number) => self.blocks.get(&number),
            Subject::Task(number) => self.tasks.get(&number),
        };
        name.map(String::as_str)
    }

    /// The number, and the name behind it if there is one.
    pub fn of(&self, subject: Subject) -> String {
        match self.name(subject) {
            Some(name) => format!("{subject} {name}"),
            None => subject.to_string(),
        }
    }

    /// Is everything that has a name there, in a sheet with so many words, blocks and tasks, and has no other of its kind the same?
    pub fn check(&self, words: usize, blocks: usize, tasks: usize) -> Result<(), String> {
        let kinds = [
            (Operand::Word, &self.words, words),
            (Operand::Block, &self.blocks, blocks),
            (Operand::Task, &self.tasks, tasks),
        ];
        for (kind, names, count) in kinds {
            if let Some((number, _)) = names.range(count..).next() {
                return Err(not_there(kind, *number, count));
            }
            if let Some((name, one, other)) = shared(names) {
                let letter = kind.letter().unwrap_or_default();
                let name = quoted(name);
                return Err(format!("{name} is the name of {letter}{one} and of {letter}{other}"));
            }
        }
        Ok(())
    }
}

/// A name that two have.
fn shared(names: &BTreeMap<usize, String>) -> Option<(&str, usize, usize)> {
    let mut first: BTreeMap<&str, usize> = BTreeMap::new();
    names.iter().find_map(|(number, name)| {
        let earlier = first.insert(name, *number)?;
        Some((name.as_str(), earlier, *number))
    })
}

fn not_there(kind: Operand, number: usize, count: usize) -> String {
    let letter = kind.letter().unwrap_or_default();
    let there = match count {
        0 => "none".to_string(),
        1 => format!("1 ({letter}0)"),
        _ => format!("{count} ({letter}0 to {letter}{})", count - 1),
    };
    format!("there is no {} {letter}{number}, the sheet has {there}", kind.name())
}

/// A word, block or task as the text form writes it: w0, b1, t4.
fn subject_of(text: &str) -> Option<Subject> {
    let number = |kind: Operand| kind.subject(kind.digits(text)?.parse().ok()?);
    NAMED.into_iter().find_map(number)
}

/// Why a text can be no name in the text form, if it cannot.
pub fn name_fault(text: &str) -> Option<String> {
    let length = text.chars().count();
    let foreign = |letter: &char| !(letter.is_ascii_alphanumeric() || "-_".contains(*letter));
    let numbered = [Operand::Register, Operand::Word, Operand::Block, Operand::Task];
    if !text.starts_with(|first: char| first.is_ascii_alphabetic()) {
        Some("it must begin with a letter, a to z or A to Z".to_string())
    } else if length > LONGEST_NAME {
        Some(format!("it has {length} characters, the most is {LONGEST_NAME}"))
    } else if let Some(letter) = text.chars().find(foreign) {
        let letter = quoted(&letter.to_string());
        Some(format!("{letter} may not stand in it, only a to z, A to Z, digits, - and _"))
    } else if is_command_word(text) {
        Some("it is the word of a command".to_string())
    } else {
        let number = numbered.into_iter().find(|kind| kind.digits(text).is_some());
        number.map(|kind| format!("it is the number of a {}", kind.name()))
    }
}
