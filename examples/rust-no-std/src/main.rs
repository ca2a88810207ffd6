//! Composes sheet A of document 01 and runs it, without Rust's standard library, heap or threads. Of the C library it takes the start,
//! `write`, `abort`, and what the proved library needs: memcpy and memset.
#![no_std]
#![no_main]

use core::ffi::{c_char, c_int, c_void};
use core::panic::PanicInfo;

use hizgrael::{Builder, Command, Refusal, LONGEST_REPORT, TOP_LIMIT};

const SHEET_A: [Command; 8] = [
    Command::Word { value: 12 },
    Command::Task,
    Command::Load { register: 1, value: 12 },
    Command::Load { register: 2, value: 5 },
    Command::Pair { word: 0, old: 1, new: 2 },
    Command::Swap { register: 0 },
    Command::Release { tick: 0, task: 0 },
    Command::End,
];

const DONE: c_int = 0;
const REFUSED: c_int = 1;
const NOT_DONE: c_int = 2;

const STANDARD_OUTPUT: c_int = 1;

#[link(name = "c")]
extern "C" {
    fn write(file: c_int, bytes: *const c_void, length: usize) -> isize;
    fn abort() -> !;
}

#[no_mangle]
extern "C" fn main(_count: c_int, _words: *const *const c_char) -> c_int {
    let mut report = [0; LONGEST_REPORT];
    match run_sheet_a(&mut report) {
        Ok(length) if printed(&report[..length]) => DONE,
        Ok(_) => NOT_DONE,
        Err(_) => REFUSED,
    }
}

fn run_sheet_a(report: &mut [u8]) -> Result<usize, Refusal> {
    // Sheet A has 29 bytes; LONGEST_SHEET is enough for any.
    let mut buffer = [0; 64];
    let mut builder = Builder::new(&mut buffer);
    for command in SHEET_A {
        builder.compose(command)?;
    }
    hizgrael::run(builder.filled(), TOP_LIMIT, report).accepted()
}

fn printed(mut bytes: &[u8]) -> bool {
    while !bytes.is_empty() {
        // SAFETY: the slice is valid for its length, and `write` only reads it.
        let written = unsafe { write(STANDARD_OUTPUT, bytes.as_ptr().cast(), bytes.len()) };
        match usize::try_from(written) {
            Ok(written) if written > 0 => bytes = &bytes[written..],
            _ => return false,
        }
    }
    true
}

/// The core library of a Linux target is built for unwinding and names this. Nobody unwinds here, so nobody calls it.
#[no_mangle]
extern "C" fn rust_eh_personality() {}

#[panic_handler]
fn panic(_: &PanicInfo) -> ! {
    // SAFETY: it takes nothing and does not return.
    unsafe { abort() }
}
