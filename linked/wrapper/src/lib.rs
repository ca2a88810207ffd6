//! A safe wrapper of the proved library's three C entries (include/hizgrael.h). Without the feature `std` it is no_std.
//!
//! ```
//! let sheet = [0x03, 0x11, 0x08, 0x00];
//! let refusal = hizgrael::check(&sheet).accepted().unwrap_err();
//! assert_eq!((refusal.number, refusal.place), (6, 1));
//! ```

#![cfg_attr(not(feature = "std"), no_std)]

mod builder;

pub use builder::{Builder, Command};

use core::error::Error;
use core::fmt;

/// HIZGRAEL_VERSION of include/hizgrael.h, where the version stands.
pub const VERSION: &str = env!("HIZGRAEL_VERSION");

/// No report is longer, so a buffer of this length is always enough.
pub const LONGEST_REPORT: usize = 3925;

/// No good sheet is longer, so a buffer of this length is always enough to compose one.
pub const LONGEST_SHEET: usize = 4857;

/// The first bytes of a longer input decide its answer, so a reader may stop there.
pub const DECIDING_LENGTH: usize = 4893;

/// The highest limit that `run` takes.
pub const TOP_LIMIT: u64 = 65_535;

/// What `compose` needs to know of the calls before. All bytes 0: nothing is filled yet.
pub type State = [u8; 64];

/// The operands of a command in document 01's order. Those that it does not have are not looked at.
pub type Operands = [u32; 9];

extern "C" {
    fn hizgrael_check(sheet: *const u8, sheet_length: usize, place: *mut u64) -> u8;
    fn hizgrael_run(
        sheet: *const u8,
        sheet_length: usize,
        limit: u64,
        report: *mut u8,
        report_length: usize,
        place: *mut u64,
    ) -> u8;
    fn hizgrael_compose(
        state: *mut u8,
        buffer: *mut u8,
        buffer_length: usize,
        command: u8,
        operands: *const u32,
        place: *mut u64,
    ) -> u8;
}

/// What the library answers: number 0, or a refusal's number from 1 to 11, with its place.
#[derive(Clone, Copy, Debug, PartialEq, Eq)]
#[must_use]
pub struct Answer {
    pub number: u8,
    pub place: u64,
}

impl Answer {
    /// The place if the number is 0: of a run the report's length, of a composed command the new filled length, of a check 0.
    pub fn accepted(self) -> Result<usize, Refusal> {
        match self.number {
            // Neither a report nor a filled part is longer than its buffer.
            0 => Ok(self.place as usize),
            number => Err(Refusal { number, place: self.place }),
        }
    }
}

/// Why a sheet or a call is turned down, and at which byte of the sheet (for 9: 0; for 10: the length that the report needs; for 11: the
/// filled length).
#[derive(Clone, Copy, Debug, PartialEq, Eq)]
pub struct Refusal {
    pub number: u8,
    pub place: u64,
}

impl Refusal {
    /// What the number says.
    pub fn meaning(&self) -> &'static str {
        match self.number {
            1 => "the byte names no command",
            2 => "the sheet ends inside a command or before END",
            3 => "a byte follows END",
            4 => "the command may not come there",
            5 => "a ceiling would be passed",
            6 => "an operand is out of range or names something not declared",
            7 => "the word is already in the waiting PAIRs",
            8 => "the releases do not rise",
            9 => "the tick limit is above 65,535",
            10 => "the report buffer is too short",
            _ => "fewer bytes are free in the buffer than the command has",
        }
    }
}

impl fmt::Display for Refusal {
    fn fmt(&self, f: &mut fmt::Formatter) -> fmt::Result {
        write!(f, "refused as {} at {}: {}", self.number, self.place, self.meaning())
    }
}

impl Error for Refusal {}

/// Is the sheet well formed?
pub fn check(sheet: &[u8]) -> Answer {
    let mut place = 0;
    // SAFETY: the slice and the number are valid for the call, and the library keeps neither.
    let number = unsafe { hizgrael_check(sheet.as_ptr(), sheet.len(), &mut place) };
    Answer { number, place }
}

/// Runs the sheet for at most `limit` ticks and writes the report to the front of the buffer. The bytes past the report are
/// unchanged; on refusal all are.
pub fn run(sheet: &[u8], limit: u64, report: &mut [u8]) -> Answer {
    let mut place = 0;
    // SAFETY: the slices and the number are valid for the call and do not overlap, and the library keeps none.
    let number = unsafe {
        hizgrael_run(
            sheet.as_ptr(),
            sheet.len(),
            limit,
            report.as_mut_ptr(),
            report.len(),
            &mut place,
        )
    };
    Answer { number, place }
}

/// The report of a run in a buffer of its own.
///
/// ```
/// // A word with 7 in it, and a task that is never released.
/// let sheet = [0x01, 0x00, 0x00, 0x00, 0x07, 0x03, 0x11, 0x00, 0x00, 0x05];
/// let report = hizgrael::report(&sheet, 10).unwrap();
/// assert_eq!(report, "W 0 7\nT 0 0 0 0 0 0\nR 0 0 0 0 0 0 0 0 0\nE 0\n");
/// assert_eq!(hizgrael::report(&sheet, 65_536).unwrap_err().number, 9);
/// ```
#[cfg(feature = "std")]
pub fn report(sheet: &[u8], limit: u64) -> Result<String, Refusal> {
    let mut report = vec![0; LONGEST_REPORT];
    let length = run(sheet, limit, &mut report).accepted()?;
    report.truncate(length);
    Ok(String::from_utf8(report).expect("a report is letters, digits, spaces and line ends"))
}

/// Hands over one more command of a sheet that is composed in the buffer; `Builder` does so more readably. State and buffer are as the
/// last call left them. A refusal changes neither, and no call the bytes past what is then filled.
pub fn compose(state: &mut State, buffer: &mut [u8], command: u8, operands: &Operands) -> Answer {
    let mut place = 0;
    // SAFETY: the arrays, the slice and the number are valid for the call and do not overlap, and the library keeps none.
    let number = unsafe {
        hizgrael_compose(
            state.as_mut_ptr(),
            buffer.as_mut_ptr(),
            buffer.len(),
            command,
            operands.as_ptr(),
            &mut place,
        )
    };
    Answer { number, place }
}
