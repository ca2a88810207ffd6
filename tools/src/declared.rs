//! What the lines of a text have declared so far, and which number an operand stands for.

use std::collections::HashMap;

use crate::form::{Operand, Row, NAMED};
use crate::names::name_fault;
use crate::nearest::nearest;
use crate::quote::{cut, quoted};
use crate::recording::subject::Subject;

/// Who has a name, and the line that says so.
#[derive(Clone, Copy, Debug)]
struct Named {
    subject: Subject,
    line: usize,
}

#[derive(Clone, Debug, Default)]
pub struct Declared {
    words: usize,
    blocks: usize,
    tasks: usize,
    /// A name may stand once in each kind.
    names: HashMap<String, Vec<Named>>,
    bare_bytes: bool,
}

impl Declared {
    /// Counts what the row declares, and returns it.
    pub fn declare(&mut self, row: &Row) -> Option<Subject> {
        let kind = row.declares()?;
        let count = match kind {
            Operand::Word => &mut self.words,
            Operand::Block => &mut self.blocks,
            _ => &mut self.tasks,
        };
        *count += 1;
        kind.subject(*count - 1)
    }

    /// Bare bytes may declare something too: from here on nobody knows which number a declaration gets.
    pub fn take_bare_byte(&mut self) {
        self.bare_bytes = true;
    }

    /// Takes the name that a declaration in this line gives.
    pub fn give(&mut self, subject: Subject, name: &str, line: usize) -> Result<(), String> {
        if let Some(reason) = name_fault(name) {
            return Err(format!("{} is no name: {reason}", quoted(name)));
        }
        if let Some(Named { subject, line }) = self.find(name, Operand::of(subject).0) {
            return Err(format!("{} is already the name of {subject}, line {line}", quoted(name)));
        }
        if self.bare_bytes {
            return Err("no name may stand here, behind a BYTE line".to_string());
        }
        self.names.entry(name.to_string()).or_default().push(Named { subject, line });
        Ok(())
    }

    fn find(&self, name: &str, kind: Operand) -> Option<&Named> {
        self.names.get(name)?.iter().find(|named| Operand::of(named.subject).0 == kind)
    }

    /// The number of an operand, which may be a name.
    pub fn number_of(&self, kind: Operand, operand: &str) -> Result<u32, String> {
        if let Some(digits) = kind.digits(operand) {
            return digits.parse().map_err(|_| too_large(kind, operand));
        }
        match self.find(operand, kind) {
            Some(named) => Ok(Operand::of(named.subject).1 as u32),
            None => Err(self.no_number(kind, operand)),
        }
    }

    fn no_number(&self, kind: Operand, operand: &str) -> String {
        let (wanted, shown) = (kind.name(), quoted(operand));
        if let Some(other) = self.names.get(operand).and_then(|named| named.first()) {
            let (subject, found) = (other.subject, Operand::of(other.subject).0.name());
            return format!("{shown} is a {found} ({subject}), and a {wanted} is wanted here");
        }
        match kind.letter() {
            Some(_) if NAMED.contains(&kind) && name_fault(operand).is_none() => {
                format!("no {wanted} is named {shown}{}", self.hint(kind, operand))
            }
            Some(letter) => format!("{shown} is no {wanted}, as in {letter}0"),
            None => format!("{shown} is no decimal number ({wanted})"),
        }
    }

    /// The name that was meant, if one is close.
    fn hint(&self, kind: Operand, operand: &str) -> String {
        let known = self.names.keys().filter(|name| self.find(name, kind).is_some());
        match nearest(operand, known.map(String::as_str)) {
            Some(name) => format!("; did you mean {name}?"),
            None => String::new(),
        }
    }
}

pub fn too_large(kind: Operand, operand: &str) -> String {
    let (name, highest) = (kind.name(), kind.written(kind.highest()));
    let article = if name.starts_with('o') { "an" } else { "a" };
    format!("{} is too large for {article} {name}, the highest is {highest}", cut(operand))
}
