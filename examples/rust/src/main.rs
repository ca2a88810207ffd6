//! Runs a sheet from a file through the proved library and prints its report, or says what is wrong and where.

use std::env;
use std::fs::File;
use std::io::{self, Read};
use std::path::Path;
use std::process::ExitCode;

use hizgrael::{DECIDING_LENGTH, TOP_LIMIT};
use run_sheet::{ends, print, NOT_DONE, REFUSED};

fn main() -> ExitCode {
    let words: Vec<_> = env::args_os().skip(1).collect();
    let [path] = words.as_slice() else {
        return ends(NOT_DONE, "usage: run-sheet FILE");
    };
    let name = path.display();
    let sheet = match read(path.as_ref()) {
        Ok(sheet) => sheet,
        Err(error) => return ends(NOT_DONE, format_args!("{name}: {error}")),
    };
    match hizgrael::report(&sheet, TOP_LIMIT) {
        Ok(report) => print(&report),
        Err(refusal) => ends(REFUSED, format_args!("{name}: {refusal}")),
    }
}

/// The first bytes decide the answer, so no more are read.
fn read(path: &Path) -> io::Result<Vec<u8>> {
    let mut sheet = Vec::new();
    File::open(path)?.take(DECIDING_LENGTH as u64).read_to_end(&mut sheet)?;
    Ok(sheet)
}
