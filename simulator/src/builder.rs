//! The sheet builder of change 4: one command after another is handed over into a lent buffer.

use crate::sheet::{self, Parser};
use crate::Answer;

/// BLOCK has the most operands, its version and eight values.
pub const OPERANDS: usize = 9;

/// A command as it is handed over. Operands that it does not have are not looked at.
#[derive(Clone, Copy, Debug, PartialEq, Eq)]
pub struct Call {
    pub command: u8,
    pub operands: [u32; OPERANDS],
}

impl Call {
    /// A call with these operands, the others 0.
    pub fn new(command: u8, given: &[u32]) -> Call {
        let mut operands = [0; OPERANDS];
        operands[..given.len()].copy_from_slice(given);
        Call { command, operands }
    }

    /// The operands that the command has; none if the byte names no command.
    pub fn own_operands(&self) -> &[u32] {
        &self.operands[..widths(self.command).map_or(0, <[usize]>::len)]
    }

    /// The command's bytes in a sheet, if it is one and its operands fit into theirs.
    pub fn bytes(&self) -> Option<Vec<u8>> {
        let (bytes, all_fit) = self.nearest_bytes(widths(self.command)?);
        all_fit.then_some(bytes)
    }

    /// The command's bytes, and whether its operands fit. For one that does not, the largest number of
    /// its bytes is written.
    fn nearest_bytes(&self, widths: &[usize]) -> (Vec<u8>, bool) {
        let mut bytes = Vec::with_capacity(37);
        let mut all_fit = true;
        bytes.push(self.command);
        for (&operand, &width) in self.operands.iter().zip(widths) {
            let largest = u32::MAX >> (32 - 8 * width);
            all_fit &= operand <= largest;
            bytes.extend_from_slice(&operand.min(largest).to_be_bytes()[4 - width..]);
        }
        (bytes, all_fit)
    }
}

/// The bytes of each operand in the sheet, or nothing if the byte names no command.
pub fn widths(command: u8) -> Option<&'static [usize]> {
    match command {
        sheet::WORD => Some(&[4]),
        sheet::BLOCK => Some(&[4; OPERANDS]),
        sheet::TASK | sheet::END | sheet::BEGIN | sheet::COMMIT => Some(&[]),
        sheet::RELEASE => Some(&[2, 1]),
        sheet::LOAD => Some(&[1, 4]),
        sheet::ADD | sheet::READ => Some(&[1, 1]),
        sheet::PAIR | sheet::GET | sheet::PUT => Some(&[1, 1, 1]),
        sheet::SWAP => Some(&[1]),
        _ => None,
    }
}

/// What is known of the filled part. The reader itself judges the next command, from what it knows of
/// those before it: to read the filled bytes again for each command would take time by the square of
/// their number. A test holds this to the reader's answer on the filled bytes and the command.
#[derive(Clone, Debug, Default)]
pub struct Builder {
    reader: Parser,
    filled: usize,
    ended: bool,
}

impl Builder {
    /// Number 0 and the new filled length, or the number and place of a refusal. The buffer holds the
    /// bytes that the last call left.
    pub fn compose(&mut self, call: &Call, buffer: &mut [u8]) -> Answer {
        let free = buffer.get_mut(self.filled..).unwrap_or_default();
        match self.judge(call, free.len()) {
            Err(number) => Answer { number, place: self.filled },
            Ok(bytes) => {
                free[..bytes.len()].copy_from_slice(&bytes);
                self.reader.take(bytes[0], &bytes[1..]);
                self.filled += bytes.len();
                self.ended = call.command == sheet::END;
                Answer { number: 0, place: self.filled }
            }
        }
    }

    /// The filled length.
    pub fn filled(&self) -> usize {
        self.filled
    }

    /// Has END been taken?
    pub fn ended(&self) -> bool {
        self.ended
    }

    /// The command's bytes, or the lowest number that turns it down, 11 after all others.
    fn judge(&self, call: &Call, free: usize) -> Result<Vec<u8>, u8> {
        if self.ended {
            return Err(3);
        }
        let widths = widths(call.command).ok_or(1)?;
        // A too wide operand is out of range, but 4 and 5 go before. The reader finds them by the
        // nearest bytes: the largest byte is no block declared, so new to a transaction, as the operand is.
        let (bytes, all_fit) = call.nearest_bytes(widths);
        match self.reader.judge(call.command, &bytes[1..]) {
            Err(number) if number < 6 => Err(number),
            _ if !all_fit => Err(6),
            Err(number) => Err(number),
            Ok(()) if bytes.len() > free => Err(11),
            Ok(()) => Ok(bytes),
        }
    }
}
