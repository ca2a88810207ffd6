//! What the comparisons share: their settings, and the library's builder beside the second one.
#![allow(dead_code)]

use hizgrael::{Answer, State};
use simulator::builder::{Builder, Call};

pub const CASES: u64 = 24_000;

pub fn setting(name: &str, otherwise: u64) -> u64 {
    std::env::var(name).map_or(otherwise, |text| text.parse().expect("a decimal number"))
}

/// Bytes around what is lent to the library, which must stay. Their number is odd: nothing lies at a round address.
pub const AROUND: usize = 47;

/// The library's state and buffer, and the second builder with its own.
#[derive(Clone)]
pub struct Both {
    pub state: Vec<u8>,
    pub buffer: Vec<u8>,
    pub second: Builder,
    second_buffer: Vec<u8>,
}

impl Both {
    pub fn with_buffer(length: usize) -> Both {
        let buffer = pattern(length + 2 * AROUND);
        let mut state = pattern(64 + 2 * AROUND);
        state[AROUND..][..64].fill(0);
        Both { state, second: Builder::default(), second_buffer: buffer.clone(), buffer }
    }

    /// Hands the command to the library alone.
    pub fn call_library(&mut self, call: &Call) -> Answer {
        let state: &mut State = (&mut self.state[AROUND..][..64]).try_into().expect("64 bytes");
        let lent = AROUND..self.buffer.len() - AROUND;
        hizgrael::compose(state, &mut self.buffer[lent], call.command, &call.operands)
    }

    /// Hands the command to both.
    pub fn call(&mut self, call: &Call) -> Answer {
        let before = self.state.clone();
        let answer = self.call_library(call);
        let lent = AROUND..self.buffer.len() - AROUND;
        let second = self.second.compose(call, &mut self.second_buffer[lent]);
        assert_eq!((answer.number, answer.place), (second.number, second.place as u64), "{call:?}");
        assert!(self.buffer == self.second_buffer, "buffer after {call:?}");
        assert!(answer.number == 0 || self.state == before, "state after {call:?}");
        assert!(around(&self.state) == around(&before), "bytes around the state after {call:?}");
        answer
    }

    /// Another length for the calls that follow. Only bytes that are not filled may get lost.
    pub fn lend(&mut self, length: usize) {
        for buffer in [&mut self.buffer, &mut self.second_buffer] {
            let mut longer = pattern(length + 2 * AROUND);
            let kept = AROUND + self.second.filled().min(length);
            longer[..kept].copy_from_slice(&buffer[..kept]);
            *buffer = longer;
        }
    }

    pub fn filled(&self) -> &[u8] {
        &self.buffer[AROUND..][..self.second.filled()]
    }
}

/// No two neighbours are the same, so that a shifted write shows.
fn pattern(length: usize) -> Vec<u8> {
    (0..length).map(|index| (index * 31 + 7) as u8).collect()
}

fn around(bytes: &[u8]) -> (&[u8], &[u8]) {
    (&bytes[..AROUND], &bytes[bytes.len() - AROUND..])
}
