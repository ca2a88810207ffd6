//! Who answers: the proved engine, or the second simulator where the program is built without it.

use simulator::builder::{self, Call};
use simulator::Answer;

#[cfg(feature = "proved")]
use crate::VERSION;

/// No report is longer.
pub const LONGEST_REPORT: usize = 3925;
/// No good sheet is longer.
pub const LONGEST_SHEET: usize = 4857;
/// The first bytes of a longer input decide its answer.
pub const DECIDING_LENGTH: usize = 4893;
/// The highest limit of ticks.
pub const TOP_LIMIT: u64 = simulator::TOP_LIMIT;

#[cfg(feature = "proved")]
const _: () = assert!(
    LONGEST_REPORT == hizgrael::LONGEST_REPORT
        && LONGEST_SHEET == hizgrael::LONGEST_SHEET
        && DECIDING_LENGTH == hizgrael::DECIDING_LENGTH
        && TOP_LIMIT == hizgrael::TOP_LIMIT
);

pub trait Engine {
    fn is_proved(&self) -> bool;

    /// Says who answered.
    fn note(&self) -> String;

    fn check(&self, sheet: &[u8]) -> Answer;

    /// The report, or the refusal.
    fn run(&self, sheet: &[u8], limit: u64) -> Result<Vec<u8>, Answer>;

    fn composer(&self) -> Box<dyn Composer>;
}

/// A sheet that is composed command by command.
pub trait Composer {
    /// The new filled length, or the refusal.
    fn compose(&mut self, call: &Call) -> Result<usize, Answer>;

    fn filled(&self) -> &[u8];
}

/// The engine that answers in this build.
pub fn engine() -> &'static dyn Engine {
    #[cfg(feature = "proved")]
    return &Proved;
    #[cfg(not(feature = "proved"))]
    return &SecondSimulator;
}

pub struct SecondSimulator;

impl Engine for SecondSimulator {
    fn is_proved(&self) -> bool {
        false
    }

    fn note(&self) -> String {
        "NOT PROVED: answered by the second simulator (this program was built without the proved library)"
            .to_string()
    }

    fn check(&self, sheet: &[u8]) -> Answer {
        simulator::check(sheet)
    }

    fn run(&self, sheet: &[u8], limit: u64) -> Result<Vec<u8>, Answer> {
        let mut report = vec![0; LONGEST_REPORT];
        let answer = simulator::run(sheet, limit, &mut report);
        report.truncate(accepted(answer)?);
        Ok(report)
    }

    fn composer(&self) -> Box<dyn Composer> {
        Box::new(SecondBuilder {
            builder: builder::Builder::default(),
            buffer: vec![0; LONGEST_SHEET],
        })
    }
}

struct SecondBuilder {
    builder: builder::Builder,
    buffer: Vec<u8>,
}

impl Composer for SecondBuilder {
    fn compose(&mut self, call: &Call) -> Result<usize, Answer> {
        accepted(self.builder.compose(call, &mut self.buffer))
    }

    fn filled(&self) -> &[u8] {
        &self.buffer[..self.builder.filled()]
    }
}

/// The place of an answer that is no refusal.
fn accepted(answer: Answer) -> Result<usize, Answer> {
    match answer.number {
        0 => Ok(answer.place),
        _ => Err(answer),
    }
}

#[cfg(feature = "proved")]
pub struct Proved;

#[cfg(feature = "proved")]
impl Engine for Proved {
    fn is_proved(&self) -> bool {
        true
    }

    fn note(&self) -> String {
        format!("answered by the proved engine, hizgrael {VERSION}")
    }

    fn check(&self, sheet: &[u8]) -> Answer {
        plain(hizgrael::check(sheet))
    }

    fn run(&self, sheet: &[u8], limit: u64) -> Result<Vec<u8>, Answer> {
        let mut report = vec![0; LONGEST_REPORT];
        let answer = hizgrael::run(sheet, limit, &mut report);
        report.truncate(accepted(plain(answer))?);
        Ok(report)
    }

    fn composer(&self) -> Box<dyn Composer> {
        Box::new(ProvedBuilder { state: [0; 64], buffer: vec![0; LONGEST_SHEET], filled: 0 })
    }
}

#[cfg(feature = "proved")]
struct ProvedBuilder {
    state: hizgrael::State,
    buffer: Vec<u8>,
    filled: usize,
}

#[cfg(feature = "proved")]
impl Composer for ProvedBuilder {
    fn compose(&mut self, call: &Call) -> Result<usize, Answer> {
        let (state, buffer) = (&mut self.state, &mut self.buffer);
        let answer = hizgrael::compose(state, buffer, call.command, &call.operands);
        self.filled = accepted(plain(answer))?;
        Ok(self.filled)
    }

    fn filled(&self) -> &[u8] {
        &self.buffer[..self.filled]
    }
}

/// The wrapper's answer as the tools take one. A place is never past the sheet or a buffer.
#[cfg(feature = "proved")]
fn plain(answer: hizgrael::Answer) -> Answer {
    Answer { number: answer.number, place: answer.place as usize }
}

#[cfg(all(test, feature = "proved"))]
mod tests {
    #[test]
    fn program_and_library_have_one_version() {
        assert_eq!(crate::VERSION, hizgrael::VERSION);
    }
}
