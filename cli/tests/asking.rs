//! Help, version, and arguments that ask for nothing that there is.
#![cfg(feature = "proved")]

mod common;

use std::fs;
use std::os::unix::ffi::OsStrExt;
use std::process::Command;

use common::{failure, own_folder, printed, run, said, status, stored, PROGRAM, SUBCOMMANDS};
use hizgrael_cli::VERSION;

#[test]
fn help_is_printed_and_nothing_else_done() {
    let program = run(&["--help"], b"");
    assert_eq!((status(&program), said(&program)), (0, String::new()));
    let text = printed(&program);
    assert!(text.contains("a proved engine that runs your tasks' sheets tick by tick"));
    assert!(text.contains("no scheduler for your board"));
    for arguments in [&["-h"][..], &["help"]] {
        assert_eq!(printed(&run(arguments, b"")), text);
    }
    for name in SUBCOMMANDS {
        assert!(text.contains(&format!("\n  {name} ")), "{name}");
        let help = printed(&run(&["help", name], b""));
        assert!(help.starts_with(&format!("hizgrael {name}: ")), "{help}");
        assert!(help.contains(&format!("\nExample: hizgrael {name} ")), "{help}");
        for arguments in
            [&[name, "--help"][..], &[name, "-h", "missing"], &[name, "missing", "--help"]]
        {
            let output = run(arguments, b"");
            assert_eq!((status(&output), printed(&output)), (0, help.clone()));
        }
        assert!(help.lines().chain(text.lines()).all(|line| line.chars().count() <= 100), "{help}");
    }
}

/// The examples of the help texts, in a folder that has their files.
#[test]
fn examples_of_the_help_can_be_run() {
    let folder = own_folder("help");
    for form in ["txt", "sheet"] {
        fs::write(folder.join(format!("room.{form}")), stored("cold-room", form)).unwrap();
    }
    for row in &hizgrael_cli::table::SUBCOMMANDS {
        let words: Vec<&str> = row.example.split(' ').skip(1).collect();
        let output = Command::new(PROGRAM).args(words).current_dir(&folder).output().unwrap();
        assert_eq!(status(&output), 0, "{}: {}", row.example, said(&output));
    }
    fs::remove_dir_all(folder).unwrap();
}

#[test]
fn the_version_is_that_of_the_header() {
    let header = include_str!("../../include/hizgrael.h");
    assert!(header.contains(&format!("\n#define HIZGRAEL_VERSION \"{VERSION}\"\n")));
    let line = format!("hizgrael {VERSION}, with the proved engine\n");
    for arguments in [&["--version"][..], &["-V"], &["run", "--version"]] {
        let output = run(arguments, b"");
        assert_eq!((status(&output), printed(&output)), (0, line.clone()));
    }
}

#[test]
fn arguments_that_ask_for_nothing_known() {
    let usage =
        "usage: hizgrael check|run|explain|chart|history|encode|decode|build [options] SHEET\n\
                 see 'hizgrael --help'";
    let cases = [
        (&[][..], usage),
        (&["rum"], "hizgrael: 'rum' is no subcommand (did you mean 'run'?); see 'hizgrael --help'"),
        (&["turn"], "hizgrael: 'turn' is no subcommand; see 'hizgrael --help'"),
        (&["help", "me"], "hizgrael: 'me' is no subcommand; see 'hizgrael --help'"),
        (&["help", "run", "me"], "hizgrael: help takes one subcommand; see 'hizgrael --help'"),
        (&["run", "-o", "", "cold-room.txt"], "--output: the file's name is empty"),
        (&["-"], "hizgrael: '-' is no subcommand; see 'hizgrael --help'"),
        (&["--chek"], "hizgrael: unknown option '--chek'; see 'hizgrael --help'"),
        (&["--quiet", "run", "-"], "hizgrael: '--quiet' comes after the subcommand; see 'hizgrael --help'"),
        (&["run"], "hizgrael run: no SHEET is given: a file, or - for standard input; see 'hizgrael run --help'"),
        (&["run", "a", "b"], "hizgrael run: one SHEET is taken, and 'b' is a second one; see 'hizgrael run --help'"),
        (
            &["run", "--limt", "3", "-"],
            "hizgrael run: unknown option '--limt' (did you mean '--limit'?); see 'hizgrael run --help'",
        ),
        (&["run", "-x", "-"], "hizgrael run: unknown option '-x'; see 'hizgrael run --help'"),
        (&["run", "--quiet=yes", "-"], "hizgrael run: --quiet takes no value; see 'hizgrael run --help'"),
        (&["run", "-", "--limit"], "hizgrael run: --limit takes a value, as in --limit N; see 'hizgrael run --help'"),
        (&["run", "-", "-o"], "hizgrael run: -o takes a value, as in -o FILE; see 'hizgrael run --help'"),
        (&["run", "--limit", "1", "--limit", "2", "-"], "hizgrael run: --limit is given twice; see 'hizgrael run --help'"),
        (&["run", "--limit", "-5", "-"], "hizgrael run: --limit: '-5' is no number of ticks; see 'hizgrael run --help'"),
        (&["run", "--limit=", "-"], "hizgrael run: --limit: '' is no number of ticks; see 'hizgrael run --help'"),
        (&["run", "--text", "--bytes", "-"], "hizgrael run: --text and --bytes exclude each other; see 'hizgrael run --help'"),
        (&["check", "--html", "-"], "hizgrael check: unknown option '--html'; see 'hizgrael check --help'"),
        (&["run", ""], "'': there is no such file"),
        (&["run", "--", "-x"], "-x: there is no such file"),
    ];
    for (arguments, message) in cases {
        assert_eq!(failure(arguments, b""), (2, format!("{message}\n")), "{arguments:?}");
    }
}

/// Long arguments are cut, unprintable ones replaced.
#[test]
fn arguments_are_not_repeated_whole() {
    let long = "x".repeat(10_000);
    for arguments in [
        &[long.as_str()][..],
        &["run", &long],
        &["run", "--limit", &long, "-"],
        &["run", &format!("--{long}"), "-"],
        &["run", "-", &long],
        &["chart", "--name", &long, "cold-room.txt"],
        &["run", "-o", &long, "cold-room.txt"],
    ] {
        let (status, said) = failure(arguments, b"");
        assert_eq!(status, 2);
        assert!(said.chars().count() < 150 && said.contains('…'), "{said}");
    }
    let name = std::ffi::OsStr::from_bytes(b"a\xFF\x1b[2J");
    let output = Command::new(PROGRAM).arg("run").arg(name).output().unwrap();
    assert_eq!(said(&output), "a\u{FFFD}\u{FFFD}[2J: there is no such file\n");
}
