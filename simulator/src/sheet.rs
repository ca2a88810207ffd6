//! The run sheet: its commands, and the parser that finds the first fault in byte order.

use std::ops::Range;

pub const MAX_WORDS: usize = 32;
pub const MAX_BLOCKS: usize = 16;
pub const MAX_TASKS: usize = 8;
pub const MAX_COMMANDS: usize = 512;
pub const MAX_RELEASES: usize = 256;
pub const MAX_PAIRS: usize = 8;
pub const MAX_TOUCHED: usize = 8;
pub const MAX_PUT: usize = 4;
pub const REGISTERS: usize = 8;
pub const BLOCK_VALUES: usize = 8;
pub const TOP_VERSION: u32 = 16_777_215;

pub const WORD: u8 = 0x01;
pub const BLOCK: u8 = 0x02;
pub const TASK: u8 = 0x03;
pub const RELEASE: u8 = 0x04;
pub const END: u8 = 0x05;
pub const LOAD: u8 = 0x10;
pub const ADD: u8 = 0x11;
pub const READ: u8 = 0x12;
pub const PAIR: u8 = 0x13;
pub const SWAP: u8 = 0x14;
pub const BEGIN: u8 = 0x20;
pub const GET: u8 = 0x21;
pub const PUT: u8 = 0x22;
pub const COMMIT: u8 = 0x23;

/// One command of a body.
#[derive(Clone, Copy, Debug, PartialEq, Eq)]
pub enum Command {
    Load { register: u8, value: u32 },
    Add { register: u8, other: u8 },
    Read { register: u8, word: u8 },
    Pair { word: u8, old: u8, new: u8 },
    Swap { register: u8 },
    Begin,
    Get { register: u8, block: u8, offset: u8 },
    Put { block: u8, offset: u8, register: u8 },
    Commit,
}

/// What a BLOCK command declares.
#[derive(Clone, Copy, Debug, PartialEq, Eq)]
pub struct Block {
    pub version: u32,
    pub values: [u32; BLOCK_VALUES],
}

/// Releases are compared by tick, then by task: the order the sheet asks for.
#[derive(Clone, Copy, Debug, PartialEq, Eq, PartialOrd, Ord)]
pub struct Release {
    pub tick: u16,
    pub task: u8,
}

/// A sheet without a fault. `bodies` holds, for each task, where its commands lie in `commands`.
#[derive(Clone, Debug, Default)]
pub struct Sheet {
    pub words: Vec<u32>,
    pub blocks: Vec<Block>,
    pub commands: Vec<Command>,
    pub bodies: Vec<Range<usize>>,
    pub releases: Vec<Release>,
}

/// Why a sheet is turned down, and where.
#[derive(Clone, Copy, Debug, PartialEq, Eq)]
pub struct Fault {
    pub number: u8,
    pub place: usize,
}

/// Reads a whole sheet, or finds its first fault.
pub fn parse(bytes: &[u8]) -> Result<Sheet, Fault> {
    let mut parser = Parser::default();
    let mut place = 0;
    loop {
        let fault = |number| Fault { number, place };
        let byte = *bytes.get(place).ok_or(fault(2))?;
        let width = operand_width(byte).ok_or(fault(1))?;
        let next = place + 1 + width;
        let operands = bytes.get(place + 1..next).ok_or(fault(2))?;
        parser.judge(byte, operands).map_err(fault)?;
        parser.take(byte, operands);
        place = next;
        if byte == END {
            break;
        }
    }
    if place < bytes.len() {
        return Err(Fault { number: 3, place });
    }
    Ok(parser.sheet)
}

/// The number of operand bytes, or nothing if the byte names no command.
fn operand_width(byte: u8) -> Option<usize> {
    match byte {
        WORD => Some(4),
        BLOCK => Some(36),
        TASK | END | BEGIN | COMMIT => Some(0),
        RELEASE | PAIR | GET | PUT => Some(3),
        LOAD => Some(5),
        ADD | READ => Some(2),
        SWAP => Some(1),
        _ => None,
    }
}

fn big_endian(bytes: &[u8]) -> u32 {
    bytes.iter().fold(0, |value, &byte| value << 8 | u32::from(byte))
}

fn release_of(operands: &[u8]) -> Release {
    Release { tick: u16::from_be_bytes([operands[0], operands[1]]), task: operands[2] }
}

#[derive(Clone, Copy, Debug, Default, PartialEq, Eq, PartialOrd, Ord)]
enum Section {
    #[default]
    Words,
    Blocks,
    Bodies,
    Releases,
}

/// The sheet so far, and what the commands so far allow next.
#[derive(Clone, Debug, Default)]
pub(crate) struct Parser {
    sheet: Sheet,
    section: Section,
    /// The words of the PAIRs that wait for their SWAP.
    waiting: Vec<u8>,
    in_transaction: bool,
    touched: Vec<u8>,
    put: Vec<u8>,
}

impl Parser {
    /// The lowest number that turns the command down. Numbers 1 and 2 are ruled out before.
    pub(crate) fn judge(&self, byte: u8, operands: &[u8]) -> Result<(), u8> {
        if self.misplaced(byte) {
            Err(4)
        } else if self.passes_ceiling(byte, operands) {
            Err(5)
        } else if self.out_of_range(byte, operands) {
            Err(6)
        } else if byte == PAIR && self.waiting.contains(&operands[0]) {
            Err(7)
        } else if byte == RELEASE && !self.rises(release_of(operands)) {
            Err(8)
        } else {
            Ok(())
        }
    }

    fn misplaced(&self, byte: u8) -> bool {
        let in_body = self.section == Section::Bodies;
        let outside = in_body && !self.in_transaction;
        let inside = in_body && self.in_transaction;
        let body_may_end = outside && self.waiting.is_empty() && !self.body_is_empty();
        let placed = match byte {
            WORD => self.section == Section::Words,
            BLOCK => self.section <= Section::Blocks,
            TASK => self.section <= Section::Blocks || body_may_end,
            RELEASE | END => self.section == Section::Releases || body_may_end,
            LOAD | ADD => in_body,
            READ | PAIR => outside,
            SWAP => outside && !self.waiting.is_empty(),
            BEGIN => outside && self.waiting.is_empty(),
            _ => inside,
        };
        !placed
    }

    fn body_is_empty(&self) -> bool {
        self.sheet.bodies.last().is_none_or(|body| body.is_empty())
    }

    /// Blocks are counted by their operand bytes, declared or not.
    fn passes_ceiling(&self, byte: u8, operands: &[u8]) -> bool {
        let sheet = &self.sheet;
        let full = |blocks: &[u8], block, most| blocks.len() == most && !blocks.contains(&block);
        if byte >= LOAD && sheet.commands.len() == MAX_COMMANDS {
            return true;
        }
        match byte {
            WORD => sheet.words.len() == MAX_WORDS,
            BLOCK => sheet.blocks.len() == MAX_BLOCKS,
            TASK => sheet.bodies.len() == MAX_TASKS,
            RELEASE => sheet.releases.len() == MAX_RELEASES,
            PAIR => self.waiting.len() == MAX_PAIRS,
            GET => full(&self.touched, operands[1], MAX_TOUCHED),
            PUT => {
                full(&self.touched, operands[0], MAX_TOUCHED)
                    || full(&self.put, operands[0], MAX_PUT)
            }
            _ => false,
        }
    }

    fn out_of_range(&self, byte: u8, operands: &[u8]) -> bool {
        let register = |operand: u8| usize::from(operand) < REGISTERS;
        let offset = |operand: u8| usize::from(operand) < BLOCK_VALUES;
        let word = |operand: u8| usize::from(operand) < self.sheet.words.len();
        let block = |operand: u8| usize::from(operand) < self.sheet.blocks.len();
        let task = |operand: u8| usize::from(operand) < self.sheet.bodies.len();
        let good = match (byte, operands) {
            (BLOCK, _) => big_endian(&operands[..4]) <= TOP_VERSION,
            (RELEASE, &[_, _, a]) => task(a),
            (LOAD, &[a, ..]) => register(a),
            (ADD, &[a, b]) => register(a) && register(b),
            (READ, &[a, b]) => register(a) && word(b),
            (PAIR, &[a, b, c]) => word(a) && register(b) && register(c),
            (SWAP, &[a]) => register(a),
            (GET, &[a, b, c]) => register(a) && block(b) && offset(c),
            (PUT, &[a, b, c]) => block(a) && offset(b) && register(c),
            _ => true,
        };
        !good
    }

    fn rises(&self, release: Release) -> bool {
        self.sheet.releases.last().is_none_or(|last| *last < release)
    }

    /// Takes in a command that was judged good.
    pub(crate) fn take(&mut self, byte: u8, operands: &[u8]) {
        match (byte, operands) {
            (WORD, _) => self.sheet.words.push(big_endian(operands)),
            (BLOCK, _) => {
                self.section = Section::Blocks;
                let mut values = [0; BLOCK_VALUES];
                for (value, bytes) in values.iter_mut().zip(operands[4..].chunks(4)) {
                    *value = big_endian(bytes);
                }
                let version = big_endian(&operands[..4]);
                self.sheet.blocks.push(Block { version, values });
            }
            (TASK, _) => {
                self.section = Section::Bodies;
                let start = self.sheet.commands.len();
                self.sheet.bodies.push(start..start);
            }
            (RELEASE, _) => {
                self.section = Section::Releases;
                self.sheet.releases.push(release_of(operands));
            }
            (LOAD, &[register, ..]) => {
                let value = big_endian(&operands[1..]);
                self.take_command(Command::Load { register, value });
            }
            (ADD, &[register, other]) => self.take_command(Command::Add { register, other }),
            (READ, &[register, word]) => self.take_command(Command::Read { register, word }),
            (PAIR, &[word, old, new]) => {
                self.waiting.push(word);
                self.take_command(Command::Pair { word, old, new });
            }
            (SWAP, &[register]) => {
                self.waiting.clear();
                self.take_command(Command::Swap { register });
            }
            (BEGIN, _) => {
                self.in_transaction = true;
                self.touched.clear();
                self.put.clear();
                self.take_command(Command::Begin);
            }
            (GET, &[register, block, offset]) => {
                insert(&mut self.touched, block);
                self.take_command(Command::Get { register, block, offset });
            }
            (PUT, &[block, offset, register]) => {
                insert(&mut self.touched, block);
                insert(&mut self.put, block);
                self.take_command(Command::Put { block, offset, register });
            }
            (COMMIT, _) => {
                self.in_transaction = false;
                self.take_command(Command::Commit);
            }
            _ => {}
        }
    }

    fn take_command(&mut self, command: Command) {
        self.sheet.commands.push(command);
        if let Some(body) = self.sheet.bodies.last_mut() {
            body.end = self.sheet.commands.len();
        }
    }
}

fn insert(blocks: &mut Vec<u8>, block: u8) {
    if !blocks.contains(&block) {
        blocks.push(block);
    }
}
