//! How messages put things: files and counts, and faults of the system.

use std::ffi::OsStr;
use std::io;

use tools::quote;

/// The name of a file is shown whole up to this many characters.
const LONGEST_NAME: usize = 200;

/// The system's EBADF, for which Rust has no kind.
const BAD_DESCRIPTOR: i32 = 9;

/// An argument between quotes, cut if it is long.
pub fn quoted(argument: &OsStr) -> String {
    quote::quoted(&argument.to_string_lossy())
}

/// A file's name, as a message begins with it. A cut one would often not tell the file.
pub fn file_name(name: &OsStr) -> String {
    let name = name.to_string_lossy();
    match name.chars().count() {
        0 => "''".to_string(),
        1..=LONGEST_NAME => name.replace(char::is_control, "\u{FFFD}"),
        _ => quote::cut(&name),
    }
}

/// `1 word`, `2 words`.
pub fn counted(count: usize, thing: &str) -> String {
    match count {
        1 => format!("1 {thing}"),
        _ => format!("{count} {thing}s"),
    }
}

/// Why the system did not do it, in words. What it should have done is reading or writing.
pub fn plain(error: &io::Error, doing: &str) -> String {
    if error.raw_os_error() == Some(BAD_DESCRIPTOR) {
        return format!("it is not open for {doing}");
    }
    match error.kind() {
        io::ErrorKind::NotFound => "there is no such file".to_string(),
        io::ErrorKind::IsADirectory => "it is a directory".to_string(),
        io::ErrorKind::PermissionDenied => "permission denied".to_string(),
        io::ErrorKind::BrokenPipe => "its reader has gone (broken pipe)".to_string(),
        io::ErrorKind::StorageFull => "no space is left on the device".to_string(),
        io::ErrorKind::FileTooLarge => "the file would be larger than it may be".to_string(),
        io::ErrorKind::NotADirectory => "a part of its path is no directory".to_string(),
        _ => {
            let text = error.to_string();
            text.split(" (os error").next().unwrap_or_default().to_lowercase()
        }
    }
}

#[cfg(test)]
mod tests {
    use std::ffi::OsStr;

    use super::{counted, file_name};

    #[test]
    fn names_of_files() {
        let shown = |name: &str| file_name(OsStr::new(name));
        assert_eq!(shown(""), "''");
        assert_eq!(shown("a\x1b[1m\n"), "a\u{FFFD}[1m\u{FFFD}");
        assert_eq!(shown(&"n".repeat(200)), "n".repeat(200));
        assert_eq!(shown(&"n".repeat(201)), format!("{}…", "n".repeat(40)));
    }

    #[test]
    fn counts() {
        assert_eq!(counted(0, "word"), "0 words");
        assert_eq!(counted(1, "word"), "1 word");
    }
}
