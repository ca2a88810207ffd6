//! Text to bytes: one command a line, `#` opens a comment, blank lines are skipped.

use std::fmt;
use std::iter::Enumerate;
use std::str;

use crate::declared::{too_large, Declared};
use crate::form::{row_of_word, Operand, Row, BARE_BYTE, TABLE};
use crate::names::Names;
use crate::nearest::nearest;
use crate::quote::{cut, quoted};
use crate::recording::subject::Subject;

/// The bytes of a text, and which line each of them comes from.
#[derive(Clone, Debug, Default, PartialEq, Eq)]
pub struct Encoded {
    pub bytes: Vec<u8>,
    /// Those of the declarations; the bytes do not have them.
    pub names: Names,
    /// For each line that gave bytes, the place of its first byte and the line number, from 1.
    lines: Vec<(usize, usize)>,
}

impl Encoded {
    /// The line whose bytes hold this place, or nothing past the end.
    pub fn line_of(&self, place: usize) -> Option<usize> {
        if place >= self.bytes.len() {
            return None;
        }
        let holder = self.lines.iter().take_while(|(start, _)| *start <= place).last();
        holder.map(|(_, line)| *line)
    }
}

/// Why a text cannot be turned into bytes.
#[derive(Clone, Debug, PartialEq, Eq)]
pub struct TextFault {
    pub line: usize,
    pub reason: String,
}

impl fmt::Display for TextFault {
    fn fmt(&self, formatter: &mut fmt::Formatter<'_>) -> fmt::Result {
        write!(formatter, "line {}: {}", self.line, self.reason)
    }
}

/// A line of the text with a command, before it becomes bytes.
#[derive(Clone, Debug, PartialEq, Eq)]
pub struct Line {
    /// From 1.
    pub number: usize,
    pub byte: u8,
    /// As they are written, names as their numbers; an operand may be too large for its bytes in the sheet.
    pub operands: Vec<u32>,
    /// The command of document 01; none for a bare byte.
    pub row: Option<&'static Row>,
    /// What a declaration gives a name, and the name.
    pub named: Option<(Subject, String)>,
}

impl Line {
    /// The bytes of the line in a sheet.
    fn bytes(&self) -> Result<Vec<u8>, String> {
        let mut bytes = vec![self.byte];
        let Some(row) = self.row else { return Ok(bytes) };
        for (&kind, &operand) in row.operands.iter().zip(&self.operands) {
            if operand > kind.largest() {
                return Err(format!("{}: {}", row.word, too_large(kind, &kind.written(operand))));
            }
            bytes.extend_from_slice(&operand.to_be_bytes()[4 - kind.width()..]);
        }
        Ok(bytes)
    }
}

/// The lines with a command, one after another.
pub struct Lines<'a> {
    rest: Enumerate<str::Lines<'a>>,
    declared: Declared,
}

/// The lines of a text. A byte order mark in front, as some editors write it, is skipped.
pub fn lines(text: &str) -> Lines<'_> {
    let text = text.strip_prefix('\u{FEFF}').unwrap_or(text);
    Lines { rest: text.lines().enumerate(), declared: Declared::default() }
}

impl Iterator for Lines<'_> {
    type Item = Result<Line, TextFault>;

    fn next(&mut self) -> Option<Result<Line, TextFault>> {
        loop {
            let (index, content) = self.rest.next()?;
            let line = index + 1;
            match self.read(line, content) {
                Ok(None) => {}
                Ok(Some(read)) => return Some(Ok(read)),
                Err(reason) => return Some(Err(TextFault { line, reason })),
            }
        }
    }
}

/// Encodes every line, or finds the first one at fault. Sheets that the check would refuse pass.
pub fn encode(text: &str) -> Result<Encoded, TextFault> {
    let mut encoded = Encoded::default();
    for line in lines(text) {
        let line = line?;
        let bytes = line.bytes().map_err(|reason| TextFault { line: line.number, reason })?;
        encoded.lines.push((encoded.bytes.len(), line.number));
        encoded.bytes.extend(bytes);
        if let Some((subject, name)) = line.named {
            encoded.names.set(subject, &name);
        }
    }
    Ok(encoded)
}

/// As `encode`, for text as it comes from a file.
pub fn encode_utf8(text: &[u8]) -> Result<Encoded, TextFault> {
    encode(utf8(text)?)
}

/// The text of a file, or its first line that is none.
pub fn utf8(text: &[u8]) -> Result<&str, TextFault> {
    str::from_utf8(text).map_err(|error| {
        let before = &text[..error.valid_up_to()];
        let line = 1 + before.iter().filter(|byte| **byte == b'\n').count();
        TextFault { line, reason: "the line is no UTF-8 text".to_string() }
    })
}

fn no_command(word: &str) -> String {
    let hint = match nearest(word, TABLE.iter().map(|row| row.word)) {
        Some(meant) => format!("; did you mean {meant}?"),
        None => String::new(),
    };
    format!("{} is no command{hint}", quoted(word))
}

impl Lines<'_> {
    fn read(&mut self, number: usize, line: &str) -> Result<Option<Line>, String> {
        if line.contains('\r') {
            return Err("a line ends in CR alone; lines end in LF or in CR LF".to_string());
        }
        let content = line.split('#').next().unwrap_or_default();
        let mut parts = content.split_whitespace();
        let Some(word) = parts.next() else { return Ok(None) };
        let parts: Vec<&str> = parts.collect();
        let read = if word == BARE_BYTE {
            self.read_byte(number, &parts)
        } else {
            let row = row_of_word(word).ok_or_else(|| no_command(word))?;
            self.read_command(number, row, &parts)
        };
        read.map(Some)
    }

    fn read_byte(&mut self, number: usize, parts: &[&str]) -> Result<Line, String> {
        let byte = self.operands(BARE_BYTE, &[Operand::Byte], parts)?[0];
        let Ok(byte) = u8::try_from(byte) else {
            return Err(format!("{BARE_BYTE}: {}", too_large(Operand::Byte, parts[0])));
        };
        self.declared.take_bare_byte();
        Ok(Line { number, byte, operands: Vec::new(), row: None, named: None })
    }

    fn read_command(
        &mut self,
        number: usize,
        row: &'static Row,
        parts: &[&str],
    ) -> Result<Line, String> {
        let (operands, name) = match row.declares() {
            Some(_) => split_name(row, parts)?,
            None => (parts, None),
        };
        let operands = self.operands(row.word, row.operands, operands)?;
        let mut named = None;
        if let (Some(subject), Some(name)) = (self.declared.declare(row), name) {
            let given = self.declared.give(subject, name, number);
            given.map_err(|reason| format!("{}: {reason}", row.word))?;
            named = Some((subject, name.to_string()));
        }
        Ok(Line { number, byte: row.byte, operands, row: Some(row), named })
    }

    fn operands(&self, word: &str, kinds: &[Operand], parts: &[&str]) -> Result<Vec<u32>, String> {
        if parts.len() != kinds.len() {
            return Err(format!("{word} takes {}, not {}", wanted(kinds), parts.len()));
        }
        let number = |(&kind, operand): (&Operand, &&str)| {
            let number = self.declared.number_of(kind, operand);
            number.map_err(|reason| format!("{word}: {reason}"))
        };
        kinds.iter().zip(parts).map(number).collect()
    }
}

/// The operands of a declaration, and the name behind them.
fn split_name<'a>(
    row: &Row,
    parts: &'a [&'a str],
) -> Result<(&'a [&'a str], Option<&'a str>), String> {
    let wanted_count = row.operands.len();
    let is_name = |part: &&str| part.starts_with(|first: char| first.is_alphabetic());
    let is_number = |part: &&str| part.starts_with(|first: char| first.is_ascii_digit());
    if wanted_count > 0 && parts.get(wanted_count).is_some_and(is_number) {
        let (word, wanted) = (row.word, wanted(row.operands));
        let given = parts.iter().take_while(|part| is_number(part)).count();
        return Err(format!("{word} takes {wanted}, not {given}"));
    }
    if parts.len() > wanted_count + 1 && is_name(&parts[wanted_count]) {
        let name = cut(&parts[wanted_count..].join("-"));
        return Err(format!("{}: a name has no spaces; write {name}", row.word));
    }
    match parts.split_last() {
        Some((name, operands)) if parts.len() == wanted_count + 1 => Ok((operands, Some(name))),
        // Operands are missing: say how many, and not that the name is no number.
        Some((name, operands)) if parts.len() <= wanted_count && is_name(name) => {
            let (word, wanted, given) = (row.word, wanted(row.operands), operands.len());
            Err(format!("{word} takes {wanted} before its name, not {given}"))
        }
        _ => Ok((parts, None)),
    }
}

/// How many operands, and which.
fn wanted(kinds: &[Operand]) -> String {
    let names: Vec<String> = kinds.chunk_by(PartialEq::eq).map(listed).collect();
    match kinds.len() {
        0 => "0 operands".to_string(),
        1 => format!("1 operand ({})", names[0]),
        count => format!("{count} operands ({})", names.join(", ")),
    }
}

/// Operands of one kind that stand side by side.
fn listed(alike: &[Operand]) -> String {
    let name = alike[0].name();
    match alike.len() {
        1 => name.to_string(),
        2 => format!("{name}, {name}"),
        count => format!("{count} {name}s"),
    }
}
