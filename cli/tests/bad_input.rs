//! Bad input to every subcommand, and outputs that fail: the answers are those of bad-input.txt.
//!
//! If answers change on purpose: BAD_INPUT_ANSWERS=FILE cargo test --test bad_input writes today's to
//! FILE, for a person to check against bad-input.txt and to put in its place. Nothing else does.
#![cfg(feature = "proved")]

mod common;

use std::fs::{self, File};
use std::io::{self, Write};
use std::path::Path;
use std::process::{Command, Output, Stdio};

use common::{own_folder, said, status, PROGRAM, SUBCOMMANDS};

const STORED: &str = include_str!("bad-input.txt");

/// What is printed is stored up to this length, else its length alone.
const LONGEST_SHOWN: usize = 400;

const GIGABYTE: u64 = 1 << 30;

/// A heading, and the command line; CMD stands for the subcommand. Every subcommand is tried.
const CASES: [(&str, &str); 38] = [
    ("An empty file", "hizgrael CMD empty"),
    ("Junk in bytes", "hizgrael CMD junk-bytes"),
    ("Junk in bytes that begins as a sheet does", "hizgrael CMD junk-later"),
    ("Junk in text", "hizgrael CMD junk.txt"),
    ("A line of 10,000 characters", "hizgrael CMD long-line.txt"),
    ("A name of 10,000 characters", "hizgrael CMD long-name.txt"),
    ("A line that is no UTF-8", "hizgrael CMD no-utf-8.txt"),
    ("A text with zero bytes", "hizgrael CMD zeros.txt"),
    ("A text taken for bytes", "hizgrael CMD --bytes good.txt"),
    ("Bytes taken for text", "hizgrael CMD --text good.sheet"),
    ("A text that is refused", "hizgrael CMD refused.txt"),
    ("Bytes that are refused", "hizgrael CMD refused.sheet"),
    ("1 GB of zeros in a file", "hizgrael CMD gigabyte"),
    ("1 GB of text in a file", "hizgrael CMD gigabyte.txt"),
    ("A good sheet, then 1 GB of zeros", "hizgrael CMD good-then-gigabyte"),
    ("1 GB of zeros on standard input", "head -c 1073741824 /dev/zero | hizgrael CMD -"),
    ("1 GB of text on standard input", "yes WORD 1 | head -c 1073741824 | hizgrael CMD -"),
    ("A directory", "hizgrael CMD folder"),
    ("A directory on standard input", "hizgrael CMD - < folder"),
    ("A file that is not there", "hizgrael CMD missing"),
    ("Standard input is closed", "hizgrael CMD - <&-"),
    ("Standard input is open for writing alone", "hizgrael CMD - 0> written"),
    ("Standard output is closed", "hizgrael CMD good.txt >&-"),
    ("Standard output is open for reading alone", "hizgrael CMD good.txt 1< empty"),
    ("Standard output is full", "hizgrael CMD good.txt > /dev/full"),
    ("Standard error is closed", "hizgrael CMD missing 2>&-"),
    ("Standard error is full", "hizgrael CMD missing 2> /dev/full"),
    ("The output's directory is not there", "hizgrael CMD -o missing/out good.txt"),
    ("The output is a directory", "hizgrael CMD -o folder good.txt"),
    ("The output is full", "hizgrael CMD -o /dev/full good.txt"),
    ("The output grows too large", "ulimit -f 0; hizgrael CMD -o written good.txt"),
    ("The output is the sheet itself", "hizgrael CMD -o ./folder/../good.txt good.txt"),
    ("A limit above the top", "hizgrael CMD --limit 65536 good.txt"),
    ("A limit that is no number", "hizgrael CMD --limit ten good.txt"),
    ("An unknown option", "hizgrael CMD --limt 5 good.txt"),
    ("No sheet", "hizgrael CMD"),
    ("No arguments", "hizgrael"),
    ("Two sheets", "hizgrael CMD good.txt good.sheet"),
];

const GOOD: &str =
    "WORD 12\nTASK\n  LOAD r1 12\n  LOAD r2 5\n  PAIR w0 r1 r2\n  SWAP r0\nRELEASE 0 t0\nEND\n";
const GOOD_BYTES: [u8; 29] = [
    1, 0, 0, 0, 12, 3, 0x10, 1, 0, 0, 0, 12, 0x10, 2, 0, 0, 0, 5, 0x13, 0, 1, 2, 0x14, 0, 4, 0, 0,
    0, 5,
];

fn make_files(folder: &Path) -> io::Result<()> {
    let write = |name: &str, bytes: &[u8]| fs::write(folder.join(name), bytes);
    write("empty", b"")?;
    write("good.txt", GOOD.as_bytes())?;
    write("good.sheet", &GOOD_BYTES)?;
    write("refused.txt", b"# one task\nTASK\n\n  ADD r8 r0\nEND\n")?;
    write("refused.sheet", &[3, 0x11, 8, 0, 5])?;
    write("junk-bytes", &[0xFF, 0xFE, 0x00, 0x80, 0x41, 0x0A])?;
    write("junk-later", &[3, 0xC0, 0xFF, 0xEE, 0x0A])?;
    write("junk.txt", b"Lorem ipsum dolor sit amet,\nconsectetur adipiscing elit.\n")?;
    write("long-line.txt", "a".repeat(10_000).as_bytes())?;
    write("long-name.txt", format!("TASK {}\n  ADD r0 r0\nEND\n", "a".repeat(10_000)).as_bytes())?;
    write("no-utf-8.txt", b"WORD 1\n# caf\xE9\nEND\n")?;
    write("zeros.txt", b"WORD 1\n\0\0\0\0\nEND\n")?;
    for (name, front) in [
        ("gigabyte", &b""[..]),
        ("gigabyte.txt", b"# a comment\n"),
        ("good-then-gigabyte", &GOOD_BYTES),
    ] {
        let mut file = File::create(folder.join(name))?;
        file.write_all(front)?;
        // A file with a hole takes no room.
        file.set_len(GIGABYTE)?;
    }
    fs::create_dir(folder.join("folder"))
}

/// Runs a command line in the shell; `hizgrael` is the program.
fn shell(folder: &Path, line: &str) -> Output {
    let programs = Path::new(PROGRAM).parent().unwrap().display().to_string();
    let path = format!("{programs}:{}", std::env::var("PATH").unwrap());
    let mut command = Command::new("sh");
    command.args(["-c", line]).env("PATH", path).current_dir(folder).stdin(Stdio::null());
    command.output().unwrap()
}

/// Status, what is printed and what is said, with CMD for the subcommand and without the version.
fn answer(subcommand: &str, output: &Output) -> String {
    let readable = |text: &str| text.chars().all(|sign| sign == '\n' || !sign.is_control());
    let printed = match std::str::from_utf8(&output.stdout) {
        Ok("") => "nothing printed".to_string(),
        Ok(text) if text.len() <= LONGEST_SHOWN && readable(text) => {
            format!("printed:\n{}", indented("> ", text))
        }
        _ => format!("{} bytes printed", output.stdout.len()),
    };
    let mut said = said(output).replace(hizgrael_cli::VERSION, "VERSION");
    for behind in [":", " --help"] {
        let own = format!("hizgrael {subcommand}{behind}");
        said = said.replace(&own, &format!("hizgrael CMD{behind}"));
    }
    format!("status {}, {}\n{}", status(output), printed.trim_end(), indented("", &said))
}

fn indented(mark: &str, text: &str) -> String {
    text.lines().map(|line| format!("    {mark}{line}\n")).collect()
}

/// The answers of all subcommands to one case; those that are equal stand together.
fn block(heading: &str, line: &str, of: impl Fn(&str) -> Output) -> String {
    let mut answers: Vec<(Vec<&str>, String)> = Vec::new();
    for subcommand in SUBCOMMANDS {
        let answer = answer(subcommand, &of(subcommand));
        match answers.iter_mut().find(|(_, known)| *known == answer) {
            Some((subcommands, _)) => subcommands.push(subcommand),
            None => answers.push((vec![subcommand], answer)),
        }
    }
    let mut text = format!("\n{heading}\n$ {line}\n");
    for (subcommands, answer) in answers {
        let who = match subcommands.len() {
            8 => "all".to_string(),
            _ => subcommands.join(", "),
        };
        text.push_str(&format!("  {who}: {answer}"));
    }
    text
}

#[test]
fn answers_are_the_stored_ones() {
    let folder = own_folder("bad-input");
    make_files(&folder).unwrap();
    let head = STORED.split("\n\n").next().unwrap();
    let mut text = format!("{head}\n");
    for (heading, line) in CASES {
        text.push_str(&block(heading, line, |subcommand| {
            shell(&folder, &line.replace("CMD", subcommand))
        }));
    }
    let line = "hizgrael CMD good.txt | a reader that has gone";
    text.push_str(&block("A broken pipe", line, |subcommand| {
        let (reader, writer) = io::pipe().unwrap();
        drop(reader);
        let mut command = Command::new(PROGRAM);
        command.args([subcommand, "good.txt"]).current_dir(&folder).stdout(writer);
        command.stderr(Stdio::piped()).spawn().unwrap().wait_with_output().unwrap()
    }));
    fs::remove_dir_all(&folder).unwrap();
    if let Ok(file) = std::env::var("BAD_INPUT_ANSWERS") {
        fs::write(file, &text).unwrap();
    }
    for (stored, today) in STORED.split("\n\n").zip(text.split("\n\n")) {
        assert!(stored.trim_end() == today.trim_end(), "stored:\n{stored}\n\ntoday:\n{today}");
    }
    assert_eq!(STORED, text);
}
