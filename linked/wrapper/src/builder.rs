//! Sheets composed command by command in a lent buffer.

use crate::{compose, Operands, Refusal, State};

/// A command of a sheet. The library judges the operands, so a number too large for its bytes is refused and never cut.
#[derive(Clone, Copy, Debug, PartialEq, Eq)]
pub enum Command {
    Word { value: u32 },
    Block { version: u32, values: [u32; 8] },
    Task,
    Release { tick: u32, task: u32 },
    End,
    Load { register: u32, value: u32 },
    Add { register: u32, other: u32 },
    Read { register: u32, word: u32 },
    Pair { word: u32, old: u32, new: u32 },
    Swap { register: u32 },
    Begin,
    Get { register: u32, block: u32, offset: u32 },
    Put { block: u32, offset: u32, register: u32 },
    Commit,
}

impl Command {
    /// The command as the library takes it: its byte, and its operands with 0 for those that it does not have.
    pub fn raw(self) -> (u8, Operands) {
        match self {
            Command::Word { value } => (0x01, operands(&[value])),
            Command::Block { version, values: [a, b, c, d, e, f, g, h] } => {
                (0x02, [version, a, b, c, d, e, f, g, h])
            }
            Command::Task => (0x03, operands(&[])),
            Command::Release { tick, task } => (0x04, operands(&[tick, task])),
            Command::End => (0x05, operands(&[])),
            Command::Load { register, value } => (0x10, operands(&[register, value])),
            Command::Add { register, other } => (0x11, operands(&[register, other])),
            Command::Read { register, word } => (0x12, operands(&[register, word])),
            Command::Pair { word, old, new } => (0x13, operands(&[word, old, new])),
            Command::Swap { register } => (0x14, operands(&[register])),
            Command::Begin => (0x20, operands(&[])),
            Command::Get { register, block, offset } => {
                (0x21, operands(&[register, block, offset]))
            }
            Command::Put { block, offset, register } => {
                (0x22, operands(&[block, offset, register]))
            }
            Command::Commit => (0x23, operands(&[])),
        }
    }
}

fn operands(given: &[u32]) -> Operands {
    let mut operands = [0; 9];
    operands[..given.len()].copy_from_slice(given);
    operands
}

/// Composes a sheet in a buffer. A refused command changes nothing, and another may follow.
///
/// ```
/// use hizgrael::{Builder, Command};
///
/// let mut buffer = [0; 64];
/// let mut builder = Builder::new(&mut buffer);
/// builder.compose(Command::Word { value: 12 })?;
/// builder.compose(Command::Task)?;
/// builder.compose(Command::Load { register: 1, value: 12 })?;
/// builder.compose(Command::Load { register: 2, value: 5 })?;
/// builder.compose(Command::Pair { word: 0, old: 1, new: 2 })?;
/// let refusal = builder.compose(Command::End).unwrap_err();
/// assert_eq!((refusal.number, refusal.place), (4, 22));
/// builder.compose(Command::Swap { register: 0 })?;
/// builder.compose(Command::Release { tick: 0, task: 0 })?;
/// assert_eq!(builder.compose(Command::End)?, 29);
///
/// let mut report = [0; hizgrael::LONGEST_REPORT];
/// let length = hizgrael::run(builder.filled(), hizgrael::TOP_LIMIT, &mut report).accepted()?;
/// assert!(report[..length].starts_with(b"W 0 5\n"));
/// # Ok::<(), hizgrael::Refusal>(())
/// ```
#[derive(Debug)]
pub struct Builder<'a> {
    state: State,
    buffer: &'a mut [u8],
    filled: usize,
}

impl<'a> Builder<'a> {
    /// Nothing is filled yet; what the buffer holds does not matter.
    pub fn new(buffer: &'a mut [u8]) -> Builder<'a> {
        Builder { state: [0; 64], buffer, filled: 0 }
    }

    /// Hands over the next command. If it is taken, its bytes follow those of the commands before, and the new filled length is returned.
    pub fn compose(&mut self, command: Command) -> Result<usize, Refusal> {
        let (byte, operands) = command.raw();
        self.compose_raw(byte, &operands)
    }

    /// As `compose`, for any byte.
    pub fn compose_raw(&mut self, byte: u8, operands: &Operands) -> Result<usize, Refusal> {
        self.filled = compose(&mut self.state, self.buffer, byte, operands).accepted()?;
        Ok(self.filled)
    }

    /// The commands taken so far: a whole sheet once END is among them.
    pub fn filled(&self) -> &[u8] {
        &self.buffer[..self.filled]
    }

    /// The same, for as long as the buffer is lent.
    pub fn into_filled(self) -> &'a [u8] {
        &self.buffer[..self.filled]
    }
}
