//! build: the commands are handed to the library's sheet builder, one after another.

use simulator::builder::Call;
use simulator::sheet::END;
use simulator::Answer;
use tools::decode::{command_at, Command};
use tools::encode::{lines, utf8, TextFault};
use tools::explain::{reason, reason_after};
use tools::form::row_of_byte;
use tools::names::Names;

use crate::arguments::Given;
use crate::engine::{engine, Composer};
use crate::failure::{meaning, not_done, Failure, Standing};
use crate::input::{self, Content, Input};
use crate::output;
use crate::sheet::{answer_to, refused, too_high};

/// The commands to hand over, and the names of what they declare.
#[derive(Default)]
struct List {
    commands: Vec<Handed>,
    names: Names,
}

/// A command to hand over.
struct Handed {
    byte: u8,
    operands: Vec<u32>,
    standing: Standing,
    /// Are its operands there, as many as it has?
    whole: bool,
}

pub fn build(given: &Given) -> Result<(), Failure> {
    let limit = given.limit()?;
    let Input { label, content, identity } = input::read(given)?;
    let (list, behind) = match &content {
        Content::Text(text) => {
            let list = of_text(text);
            let list = list.map_err(|fault| not_done(format!("{label}: {fault}")))?;
            (list, Standing::AfterLastLine)
        }
        Content::Bytes { first, .. } => (of_bytes(first), Standing::NoText),
    };
    let mut composer = engine().composer();
    compose(&label, &list, behind, composer.as_mut())?;
    let answer = answer_to(composer.filled(), &limit);
    if answer.number != 0 {
        return Err(refused(&label, answer, Standing::NoText, too_high(&limit)));
    }
    output::write(given, identity, composer.filled())
}

fn of_text(text: &[u8]) -> Result<List, TextFault> {
    let mut list = List::default();
    for line in lines(utf8(text)?) {
        let line = line?;
        let operands = row_of_byte(line.byte).map_or(0, |row| row.operands.len());
        let whole = line.operands.len() == operands;
        let standing = Standing::Line(line.number);
        list.commands.push(Handed { byte: line.byte, operands: line.operands, standing, whole });
        if let Some((subject, name)) = line.named {
            list.names.set(subject, &name);
        }
    }
    Ok(list)
}

/// The commands up to the first byte that is none, which is handed over by itself and refused.
fn of_bytes(bytes: &[u8]) -> List {
    let mut commands = Vec::new();
    let mut place = 0;
    while place < bytes.len() {
        let standing = Standing::NoText;
        let Ok(command) = command_at(bytes, place) else {
            let byte = bytes[place];
            let whole = row_of_byte(byte).is_none();
            commands.push(Handed { byte, operands: Vec::new(), standing, whole });
            break;
        };
        place = command.end();
        let (byte, operands) = (command.row.byte, command.operands);
        commands.push(Handed { byte, operands, standing, whole: true });
    }
    List { commands, names: Names::default() }
}

/// Hands over all commands; the filled part is then a whole sheet.
fn compose(
    label: &str,
    list: &List,
    behind: Standing,
    composer: &mut dyn Composer,
) -> Result<(), Failure> {
    let mut ended = false;
    for command in &list.commands {
        // After END every byte is refused, whatever it lacks.
        if !command.whole && !ended {
            return Err(cut(label, command, composer.filled()));
        }
        let call = Call::new(command.byte, &command.operands);
        composer.compose(&call).map_err(|answer| {
            let reason = reason_of(composer.filled(), command, answer, &list.names);
            refused(label, answer, command.standing, reason)
        })?;
        ended = command.byte == END;
    }
    if ended {
        return Ok(());
    }
    let answer = engine().check(composer.filled());
    Err(refused(label, answer, behind, reason(composer.filled(), answer, &list.names)))
}

/// A command without its operands cannot be handed over. In bytes the sheet ends there.
fn cut(label: &str, command: &Handed, filled: &[u8]) -> Failure {
    let word = row_of_byte(command.byte).map_or("", |row| row.word);
    match command.standing {
        Standing::Line(line) => {
            let reason = format!("{word} must be written as a whole, not as bare bytes");
            not_done(format!("{label}: line {line}: {reason}"))
        }
        standing => {
            let answer = engine().check(&[filled, &[command.byte]].concat());
            refused(label, answer, standing, format!("the sheet ends inside {word}"))
        }
    }
}

fn reason_of(filled: &[u8], command: &Handed, answer: Answer, names: &Names) -> String {
    match (answer.number, row_of_byte(command.byte)) {
        (1 | 3, _) => reason(&[filled, &[command.byte]].concat(), answer, names),
        (4..=8, Some(row)) => {
            let operands = command.operands.clone();
            let command = Command { place: filled.len(), row, operands };
            reason_after(filled, &command, answer.number, names)
        }
        _ => meaning(answer.number).to_string(),
    }
}
