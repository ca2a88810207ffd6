//! What the check answers to a sheet, with the line of a fault and a sentence that says why.

use std::fmt;

use simulator::sheet::{BLOCK_VALUES, MAX_TOUCHED, MAX_WORDS, REGISTERS, TOP_VERSION};
use simulator::sheet::{MAX_BLOCKS, MAX_COMMANDS, MAX_PAIRS, MAX_PUT, MAX_RELEASES, MAX_TASKS};
use simulator::{check, Answer};

use crate::decode::{command_at, commands, Command};
use crate::form::Operand;
use crate::names::Names;
use crate::recording::subject::Subject;

/// The check's answer; for a refusal, the line of the text and the reason in words.
#[derive(Clone, Debug, PartialEq, Eq)]
pub struct Verdict {
    pub answer: Answer,
    pub line: Option<usize>,
    pub reason: String,
}

impl Verdict {
    pub fn accepted(&self) -> bool {
        self.answer.number == 0
    }
}

impl fmt::Display for Verdict {
    fn fmt(&self, formatter: &mut fmt::Formatter<'_>) -> fmt::Result {
        if self.accepted() {
            return write!(formatter, "accepted");
        }
        let Answer { number, place } = self.answer;
        write!(formatter, "X {number} {place}, ")?;
        match self.line {
            Some(line) => write!(formatter, "line {line}: {}", self.reason),
            None => write!(formatter, "after the last line: {}", self.reason),
        }
    }
}

/// Asks the check, and says where in the text the fault lies.
pub fn verdict(bytes: &[u8], names: &Names, line_of: impl Fn(usize) -> Option<usize>) -> Verdict {
    let answer = check(bytes);
    if answer.number == 0 {
        return Verdict { answer, line: None, reason: String::new() };
    }
    Verdict { answer, line: line_of(answer.place), reason: reason(bytes, answer, names) }
}

/// What is wrong with a sheet that the check answers this way.
pub fn reason(bytes: &[u8], refusal: Answer, names: &Names) -> String {
    let Answer { number, place } = refusal;
    if number == 3 {
        return "a byte follows END".to_string();
    }
    if place == bytes.len() {
        return "the sheet ends before END".to_string();
    }
    match command_at(bytes, place) {
        Err(fault) => fault.reason,
        Ok(command) => reason_after(&bytes[..place], &command, number, names),
    }
}

/// Why a command is turned down with a number from 4 to 8 after these bytes, which are good so far.
pub fn reason_after(before: &[u8], command: &Command, number: u8, names: &Names) -> String {
    // Every command before it was taken, so they can be read.
    let before = Before { commands: commands(before).unwrap_or_default(), names };
    match number {
        4 => before.misplaced(command),
        5 => before.passes_ceiling(command),
        6 => before.out_of_range(command),
        7 => {
            let word = names.of(Subject::Word(command.operands[0] as usize));
            format!("{word} is already in the waiting PAIRs")
        }
        _ => before.does_not_rise(),
    }
}

/// The commands before the one at fault, and the names of what they declare.
struct Before<'a> {
    commands: Vec<Command>,
    names: &'a Names,
}

impl Before<'_> {
    fn count(&self, word: &str) -> usize {
        self.commands.iter().filter(|command| command.is(word)).count()
    }

    /// The commands since the last one with this word.
    fn since(&self, word: &str) -> &[Command] {
        let start = self.commands.iter().rposition(|command| command.is(word));
        &self.commands[start.map_or(0, |index| index + 1)..]
    }

    fn in_transaction(&self) -> bool {
        let begin = self.commands.iter().rposition(|command| command.is("BEGIN"));
        begin > self.commands.iter().rposition(|command| command.is("COMMIT"))
    }

    fn misplaced(&self, command: &Command) -> String {
        let word = command.row.word;
        let tasks = self.count("TASK");
        let releases = self.count("RELEASE");
        match word {
            "WORD" => "WORDs come before the first BLOCK and the first TASK".to_string(),
            "BLOCK" => "BLOCKs come before the first TASK".to_string(),
            "TASK" if releases > 0 => "TASKs come before the first RELEASE".to_string(),
            "TASK" | "RELEASE" | "END" => self.body_may_not_end(tasks),
            _ if tasks == 0 || releases > 0 => format!("{word} stands only in a task's body"),
            "GET" | "PUT" | "COMMIT" => format!("{word} stands only between BEGIN and COMMIT"),
            _ if self.in_transaction() => format!("{word} stands only outside transactions"),
            "SWAP" => "no PAIR waits for this SWAP".to_string(),
            _ => format!("{word} while PAIRs wait for their SWAP"),
        }
    }

    fn body_may_not_end(&self, tasks: usize) -> String {
        let Some(last) = tasks.checked_sub(1) else {
            return "a sheet has at least one TASK".to_string();
        };
        let task = self.names.of(Subject::Task(last));
        if self.since("TASK").is_empty() {
            format!("the body of {task} is empty")
        } else if self.in_transaction() {
            format!("the body of {task} ends before COMMIT")
        } else {
            format!("the body of {task} ends with PAIRs waiting for their SWAP")
        }
    }

    fn passes_ceiling(&self, command: &Command) -> String {
        let in_bodies = self.commands.iter().filter(|before| before.row.stands_in_body()).count();
        if command.row.stands_in_body() && in_bodies == MAX_COMMANDS {
            return format!("the bodies have {MAX_COMMANDS} commands already, the most of a sheet");
        }
        match command.row.word {
            "WORD" => format!("a sheet has at most {MAX_WORDS} words"),
            "BLOCK" => format!("a sheet has at most {MAX_BLOCKS} blocks"),
            "TASK" => format!("a sheet has at most {MAX_TASKS} tasks"),
            "RELEASE" => format!("a sheet has at most {MAX_RELEASES} releases"),
            "PAIR" => format!("a SWAP has at most {MAX_PAIRS} PAIRs"),
            "PUT" if self.blocks_put() == MAX_PUT => {
                format!("a transaction PUTs at most {MAX_PUT} different blocks")
            }
            _ => format!("a transaction names at most {MAX_TOUCHED} different blocks"),
        }
    }

    /// How many different blocks the transaction PUT so far.
    fn blocks_put(&self) -> usize {
        let puts = self.since("BEGIN").iter().filter(|command| command.is("PUT"));
        let mut blocks: Vec<u32> = puts.map(|command| command.operands[0]).collect();
        blocks.sort_unstable();
        blocks.dedup();
        blocks.len()
    }

    fn out_of_range(&self, command: &Command) -> String {
        let operands = command.row.operands.iter().zip(&command.operands);
        let reasons = operands.map(|(&kind, &number)| self.operand_out_of_range(kind, number));
        reasons.flatten().next().unwrap_or_default()
    }

    fn operand_out_of_range(&self, kind: Operand, number: u32) -> Option<String> {
        let written = kind.written(number);
        let beyond = |count: usize| number as usize >= count;
        match kind {
            Operand::Register if beyond(REGISTERS) => {
                Some(format!("{written} is no register, they are r0 to r{}", REGISTERS - 1))
            }
            Operand::Offset if beyond(BLOCK_VALUES) => {
                Some(format!("{written} is no offset, they are 0 to {}", BLOCK_VALUES - 1))
            }
            Operand::Version if number > TOP_VERSION => {
                Some(format!("version {written} is above {TOP_VERSION}"))
            }
            // Only the builder is handed such a tick.
            Operand::Tick if number > kind.largest() => {
                Some(format!("tick {written} is above {}", kind.largest()))
            }
            Operand::Word if beyond(self.count("WORD")) => Some(not_declared(kind, &written)),
            Operand::Block if beyond(self.count("BLOCK")) => Some(not_declared(kind, &written)),
            Operand::Task if beyond(self.count("TASK")) => Some(not_declared(kind, &written)),
            _ => None,
        }
    }

    fn does_not_rise(&self) -> String {
        let last = self.commands.last().map(Command::written).unwrap_or_default();
        format!("releases rise by tick, at equal ticks by task; before it stands {last}")
    }
}

fn not_declared(kind: Operand, written: &str) -> String {
    format!("the {} {written} is not declared", kind.name())
}
