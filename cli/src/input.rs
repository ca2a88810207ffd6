//! The input: a file or standard input, taken for text or for bytes by its first byte.

use std::fs::{File, Metadata};
use std::io::{self, IsTerminal, Read};
use std::os::fd::AsFd;
use std::os::unix::fs::MetadataExt;
use std::path::Path;

use crate::arguments::Given;
use crate::engine::DECIDING_LENGTH;
use crate::failure::{not_done, Failure};
use crate::streams;
use crate::table::{BYTES, QUIET, TEXT};
use crate::tell;
use crate::words::{file_name, plain};

/// No longer text is read: a sheet of 4,857 bytes has some 1,000 lines.
pub const LONGEST_TEXT: usize = 1 << 20;

const BYTE_ORDER_MARK: [u8; 3] = [0xEF, 0xBB, 0xBF];

/// A file's device and number, by which it is known under any name.
pub type Identity = (u64, u64);

/// What was read, and what it is called.
#[derive(Clone, Debug)]
pub struct Input {
    /// As messages name it.
    pub label: String,
    pub content: Content,
    /// Of a regular file alone.
    pub identity: Option<Identity>,
}

#[derive(Clone, Debug, PartialEq, Eq)]
pub enum Content {
    /// Without its byte order mark.
    Text(Vec<u8>),
    /// The first bytes, which decide the answer, and whether they are all.
    Bytes { first: Vec<u8>, all: bool },
}

/// Reads the sheet that the arguments name.
pub fn read(given: &Given) -> Result<Input, Failure> {
    let label = match given.is_standard_input() {
        true => "standard input".to_string(),
        false => file_name(&given.sheet),
    };
    let failed = |error: io::Error| not_done(format!("{label}: {}", plain(&error, "reading")));
    let mut file = opened(given).map_err(failed)?;
    let identity = file.metadata().ok().as_ref().and_then(identity);
    let content = content(&mut file, form(given)?).map_err(failed)?;
    if matches!(&content, Content::Text(text) if text.len() > LONGEST_TEXT) {
        let reason = format!("the text has more than {LONGEST_TEXT} bytes, the most that is read");
        return Err(not_done(format!("{label}: {reason}")));
    }
    Ok(Input { label, content, identity })
}

fn opened(given: &Given) -> io::Result<File> {
    if !given.is_standard_input() {
        return File::open(Path::new(&given.sheet));
    }
    if streams::input_was_closed() {
        return Err(io::Error::other("it is closed"));
    }
    if io::stdin().is_terminal() && !given.has(&QUIET) {
        tell("reading the sheet from the terminal; control-D ends it");
    }
    Ok(File::from(io::stdin().as_fd().try_clone_to_owned()?))
}

/// Regular files alone: every terminal or pipe may be read and written at once.
pub fn identity(metadata: &Metadata) -> Option<Identity> {
    metadata.is_file().then(|| (metadata.dev(), metadata.ino()))
}

/// What the arguments say that the sheet is, if they do.
fn form(given: &Given) -> Result<Option<Form>, Failure> {
    match (given.has(&TEXT), given.has(&BYTES)) {
        (true, true) => Err(given.fault("--text and --bytes exclude each other")),
        (true, false) => Ok(Some(Form::Text)),
        (false, true) => Ok(Some(Form::Bytes)),
        (false, false) => Ok(None),
    }
}

#[derive(Clone, Copy, Debug, PartialEq, Eq)]
enum Form {
    Text,
    Bytes,
}

fn content(source: &mut impl Read, form: Option<Form>) -> io::Result<Content> {
    let mut bytes = Vec::new();
    read_up_to(source, &mut bytes, BYTE_ORDER_MARK.len())?;
    // One byte more than is taken shows that there is more.
    match form.unwrap_or_else(|| form_of(&bytes)) {
        Form::Text => {
            if bytes == BYTE_ORDER_MARK {
                bytes.clear();
            }
            read_up_to(source, &mut bytes, LONGEST_TEXT + 1)?;
            Ok(Content::Text(bytes))
        }
        Form::Bytes => {
            read_up_to(source, &mut bytes, DECIDING_LENGTH + 1)?;
            let all = bytes.len() <= DECIDING_LENGTH;
            bytes.truncate(DECIDING_LENGTH);
            Ok(Content::Bytes { first: bytes, all })
        }
    }
}

/// A good sheet in bytes begins with 01, 02 or 03, so none is taken for text.
fn form_of(first: &[u8]) -> Form {
    match first {
        [b' '..=b'~' | b'\t' | b'\n' | b'\r', ..] => Form::Text,
        _ if first == BYTE_ORDER_MARK => Form::Text,
        _ => Form::Bytes,
    }
}

/// Reads on until there are this many bytes, or no more come.
fn read_up_to(source: &mut impl Read, bytes: &mut Vec<u8>, length: usize) -> io::Result<()> {
    let missing = length.saturating_sub(bytes.len()) as u64;
    source.take(missing).read_to_end(bytes).map(|_| ())
}

#[cfg(test)]
mod tests {
    use super::{content, Content, Form, DECIDING_LENGTH, LONGEST_TEXT};

    fn read(mut bytes: &[u8], form: Option<Form>) -> Content {
        content(&mut bytes, form).unwrap()
    }

    fn text(bytes: &[u8]) -> Content {
        Content::Text(bytes.to_vec())
    }

    fn all(bytes: &[u8]) -> Content {
        Content::Bytes { first: bytes.to_vec(), all: true }
    }

    #[test]
    fn the_first_byte_tells() {
        for first in [0x20, 0x7E, b'\t', b'\n', b'\r'] {
            assert_eq!(read(&[first, 0xFF], None), text(&[first, 0xFF]));
        }
        for first in [0x00, 0x01, 0x02, 0x03, 0x1F, 0x7F, 0x80, 0xEF, 0xFF] {
            assert_eq!(read(&[first, b'A'], None), all(&[first, b'A']));
        }
        assert_eq!(read(&[], None), all(&[]));
        assert_eq!(read(b"\xEF\xBB\xBFEND", None), text(b"END"));
        assert_eq!(read(b"\xEF\xBB", None), all(b"\xEF\xBB"));
    }

    #[test]
    fn the_form_can_be_forced() {
        assert_eq!(read(b"END", Some(Form::Bytes)), all(b"END"));
        assert_eq!(read(&[3, 4], Some(Form::Text)), text(&[3, 4]));
    }

    #[test]
    fn no_more_is_read_than_decides() {
        let long = vec![1; DECIDING_LENGTH + 9];
        let first = vec![1; DECIDING_LENGTH];
        assert_eq!(read(&long, None), Content::Bytes { first: first.clone(), all: false });
        assert_eq!(read(&first, None), all(&first));
        let Content::Text(text) = read(&vec![b' '; 2 * LONGEST_TEXT], None) else { panic!() };
        assert_eq!(text.len(), LONGEST_TEXT + 1);
    }
}
