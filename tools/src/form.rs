//! The text form of a sheet as one table: each command's word, byte and operands.

use simulator::sheet;

use crate::recording::subject::Subject;

/// What an operand means, which also fixes how it is written and how many bytes it takes.
#[derive(Clone, Copy, Debug, PartialEq, Eq)]
pub enum Operand {
    Value,
    Version,
    Tick,
    Offset,
    Register,
    Word,
    Block,
    Task,
    Byte,
}

impl Operand {
    /// The number of bytes in the sheet.
    pub fn width(self) -> usize {
        match self {
            Operand::Value | Operand::Version => 4,
            Operand::Tick => 2,
            _ => 1,
        }
    }

    /// The largest number that its bytes can hold.
    pub fn largest(self) -> u32 {
        match self.width() {
            1 => u8::MAX.into(),
            2 => u16::MAX.into(),
            _ => u32::MAX,
        }
    }

    /// The highest number that any sheet can have there.
    pub fn highest(self) -> u32 {
        let last = |count: usize| count as u32 - 1;
        match self {
            Operand::Register => last(sheet::REGISTERS),
            Operand::Offset => last(sheet::BLOCK_VALUES),
            Operand::Word => last(sheet::MAX_WORDS),
            Operand::Block => last(sheet::MAX_BLOCKS),
            Operand::Task => last(sheet::MAX_TASKS),
            Operand::Version => sheet::TOP_VERSION,
            Operand::Value | Operand::Tick | Operand::Byte => self.largest(),
        }
    }

    /// The letter in front of the number; other operands are plain numbers.
    pub fn letter(self) -> Option<char> {
        match self {
            Operand::Register => Some('r'),
            Operand::Word => Some('w'),
            Operand::Block => Some('b'),
            Operand::Task => Some('t'),
            _ => None,
        }
    }

    pub fn name(self) -> &'static str {
        match self {
            Operand::Value => "value",
            Operand::Version => "version",
            Operand::Tick => "tick",
            Operand::Offset => "offset",
            Operand::Register => "register",
            Operand::Word => "word",
            Operand::Block => "block",
            Operand::Task => "task",
            Operand::Byte => "byte",
        }
    }

    /// The operand as the text form writes it.
    pub fn written(self, number: u32) -> String {
        match self.letter() {
            Some(letter) => format!("{letter}{number}"),
            None => number.to_string(),
        }
    }

    /// The digits of an operand that is written as a number.
    pub fn digits(self, text: &str) -> Option<&str> {
        let digits = match self.letter() {
            Some(letter) => text.strip_prefix(letter)?,
            None => text,
        };
        let all = digits.bytes().all(|byte| byte.is_ascii_digit());
        (all && !digits.is_empty()).then_some(digits)
    }

    /// The operand that stands for a word, a block or a task, and its number.
    pub fn of(subject: Subject) -> (Operand, usize) {
        match subject {
            Subject::Word(number) => (Operand::Word, number),
            Subject::Block(number) => (Operand::Block, number),
            Subject::Task(number) => (Operand::Task, number),
        }
    }

    /// What it numbers, if that can have a name.
    pub fn subject(self, number: usize) -> Option<Subject> {
        match self {
            Operand::Word => Some(Subject::Word(number)),
            Operand::Block => Some(Subject::Block(number)),
            Operand::Task => Some(Subject::Task(number)),
            _ => None,
        }
    }
}

/// The operands for which a name may stand.
pub const NAMED: [Operand; 3] = [Operand::Word, Operand::Block, Operand::Task];

/// One command of document 01.
#[derive(Debug, PartialEq, Eq)]
pub struct Row {
    pub word: &'static str,
    pub byte: u8,
    pub operands: &'static [Operand],
}

impl Row {
    /// The number of operand bytes.
    pub fn width(&self) -> usize {
        self.operands.iter().map(|operand| operand.width()).sum()
    }

    pub fn stands_in_body(&self) -> bool {
        self.byte >= sheet::LOAD
    }

    /// What it declares, which may have a name.
    pub fn declares(&self) -> Option<Operand> {
        match self.byte {
            sheet::WORD => Some(Operand::Word),
            sheet::BLOCK => Some(Operand::Block),
            sheet::TASK => Some(Operand::Task),
            _ => None,
        }
    }
}

const fn row(word: &'static str, byte: u8, operands: &'static [Operand]) -> Row {
    Row { word, byte, operands }
}

use Operand::{Block, Offset, Register, Task, Tick, Value, Version, Word};

pub const TABLE: [Row; 14] = [
    row("WORD", sheet::WORD, &[Value]),
    row("BLOCK", sheet::BLOCK, &[Version, Value, Value, Value, Value, Value, Value, Value, Value]),
    row("TASK", sheet::TASK, &[]),
    row("RELEASE", sheet::RELEASE, &[Tick, Task]),
    row("END", sheet::END, &[]),
    row("LOAD", sheet::LOAD, &[Register, Value]),
    row("ADD", sheet::ADD, &[Register, Register]),
    row("READ", sheet::READ, &[Register, Word]),
    row("PAIR", sheet::PAIR, &[Word, Register, Register]),
    row("SWAP", sheet::SWAP, &[Register]),
    row("BEGIN", sheet::BEGIN, &[]),
    row("GET", sheet::GET, &[Register, Block, Offset]),
    row("PUT", sheet::PUT, &[Block, Offset, Register]),
    row("COMMIT", sheet::COMMIT, &[]),
];

/// The one word beside document 01's: a bare byte, for faulty sheets that are no row of commands.
pub const BARE_BYTE: &str = "BYTE";

pub fn row_of_word(word: &str) -> Option<&'static Row> {
    TABLE.iter().find(|row| row.word == word)
}

/// Does a line of the text form begin with it?
pub fn is_command_word(word: &str) -> bool {
    word == BARE_BYTE || row_of_word(word).is_some()
}

pub fn row_of_byte(byte: u8) -> Option<&'static Row> {
    TABLE.iter().find(|row| row.byte == byte)
}
