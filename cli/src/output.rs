//! Where the result goes: standard output or a file. Every failure is told.

use std::ffi::OsStr;
use std::fs::{self, File};
use std::io::{self, Write};
use std::os::fd::AsFd;

use crate::arguments::Given;
use crate::failure::{not_done, Failure};
use crate::input::{identity, Identity};
use crate::streams;
use crate::table::OUTPUT;
use crate::words::{file_name, plain};

/// Writes where the arguments say; the input itself is not written over.
pub fn write(given: &Given, input: Option<Identity>, bytes: &[u8]) -> Result<(), Failure> {
    match given.value(&OUTPUT) {
        Some(name) if name != "-" => to_file(name, input, bytes),
        _ => to_standard_output(bytes),
    }
}

pub fn to_standard_output(bytes: &[u8]) -> Result<(), Failure> {
    if streams::output_was_closed() {
        return Err(not_done("standard output: it is closed, so nothing was written"));
    }
    // Rust's own standard output takes a failed write to a stream that is not open for writing for done.
    let stream = io::stdout().as_fd().try_clone_to_owned().map(File::from);
    let written = stream.and_then(|mut stream| stream.write_all(bytes));
    written.map_err(|error| not_done(format!("standard output: {}", plain(&error, "writing"))))
}

fn to_file(name: &OsStr, input: Option<Identity>, bytes: &[u8]) -> Result<(), Failure> {
    if name.is_empty() {
        return Err(not_done(format!("{}: the file's name is empty", OUTPUT.long)));
    }
    let shown = file_name(name);
    let present = fs::metadata(name).ok();
    if input.is_some() && present.as_ref().and_then(identity) == input {
        return Err(not_done(format!(
            "{shown}: it is the sheet itself, which is not written over"
        )));
    }
    let mut file = File::create(name).map_err(|error| {
        let reason = match error.kind() {
            io::ErrorKind::NotFound => {
                "the directory that it would stand in is not there".to_string()
            }
            _ => plain(&error, "writing"),
        };
        not_done(format!("{shown}: {reason}"))
    })?;
    file.write_all(bytes).map_err(|error| {
        not_done(format!(
            "{shown}: {}; what stands there now is not whole",
            plain(&error, "writing")
        ))
    })
}
