//! What both programs share: a report printed so that no failure is silent, and the statuses with which they end.

use std::ffi::c_int;
use std::fmt::Display;
use std::fs::File;
use std::io::{self, stderr, stdout, Write};
use std::os::fd::AsFd;
use std::process::ExitCode;
use std::sync::atomic::{AtomicBool, Ordering};

/// The sheet or a command was refused.
pub const REFUSED: u8 = 1;

/// Wrong usage, a file that cannot be read, an output that cannot be written.
pub const NOT_DONE: u8 = 2;

/// Prints the report, and says on standard error if it could not.
pub fn print(report: &str) -> ExitCode {
    match write(report.as_bytes()) {
        Ok(()) => ExitCode::SUCCESS,
        Err(error) => ends(NOT_DONE, format_args!("standard output: {error}")),
    }
}

/// Says why on standard error. Where that cannot be written the status still tells, so not by `eprintln!`, which panics.
pub fn ends(status: u8, why: impl Display) -> ExitCode {
    let _ = writeln!(stderr(), "{why}");
    ExitCode::from(status)
}

fn write(bytes: &[u8]) -> io::Result<()> {
    if CLOSED.load(Ordering::Relaxed) {
        return Err(io::Error::other("it is closed"));
    }
    // Not by `stdout()` itself: it takes an output that is not open for writing for a good one.
    File::from(stdout().as_fd().try_clone_to_owned()?).write_all(bytes)
}

// Before `main`, Rust's runtime opens /dev/null in place of a closed standard output, and all that is written there is lost without an
// error. The C library calls the functions of .init_array before that.
static CLOSED: AtomicBool = AtomicBool::new(false);

#[used]
#[link_section = ".init_array"]
static LOOK: extern "C" fn() = look;

extern "C" fn look() {
    const STANDARD_OUTPUT: c_int = 1;
    const F_GETFD: c_int = 1;
    // SAFETY: this only asks, and takes no pointer.
    let flags = unsafe { fcntl(STANDARD_OUTPUT, F_GETFD) };
    CLOSED.store(flags == -1, Ordering::Relaxed);
}

extern "C" {
    fn fcntl(file: c_int, command: c_int, ...) -> c_int;
}
