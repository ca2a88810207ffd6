//! docs/PROGRAM.md: each of its examples prints what stands below it. README.md: its sheet gives the report beside it.
#![cfg(feature = "proved")]

mod common;

use std::path::Path;
use std::process::Command;

use common::{printed, run, PROGRAM};
use tools::examples::folder;

const MANUAL: &str = include_str!("../../docs/PROGRAM.md");
const README: &str = include_str!("../../README.md");

/// Where the second column of the README's sheet and report begins.
const REPORT_COLUMN: usize = 32;

/// Indented lines: the command behind a $, then what it prints and says.
fn examples() -> Vec<(String, String)> {
    let mut examples: Vec<(String, String)> = Vec::new();
    let mut inside = false;
    for line in MANUAL.lines() {
        if let Some(command) = line.strip_prefix("    $ ") {
            examples.push((command.to_string(), String::new()));
        } else if let (true, Some(text)) = (inside, line.strip_prefix("    ")) {
            examples.last_mut().unwrap().1.push_str(&format!("{text}\n"));
        }
        inside = line.starts_with("    ") && (inside || line.starts_with("    $ "));
    }
    examples
}

/// What a command prints, and then says.
fn answer(command: &str) -> String {
    let programs = Path::new(PROGRAM).parent().unwrap().display().to_string();
    let path = format!("{programs}:{}", std::env::var("PATH").unwrap());
    let mut shell = Command::new("sh");
    let output =
        shell.args(["-c", command]).env("PATH", path).current_dir(folder()).output().unwrap();
    let text = String::from_utf8([output.stdout, output.stderr].concat()).unwrap();
    text.replace(hizgrael_cli::VERSION, "X.Y.Z")
}

#[test]
fn examples_of_the_manual() {
    let examples = examples();
    assert_eq!(examples.len(), 7);
    for (command, expected) in examples {
        assert_eq!(answer(&command), expected, "{command}");
    }
}

/// The manual has every subcommand and every option.
#[test]
fn the_manual_is_whole() {
    for row in &hizgrael_cli::table::SUBCOMMANDS {
        assert!(MANUAL.contains(&format!("\n| `{}` |", row.name)), "{}", row.name);
        for choice in row.choices().filter(|choice| choice.long != "--csv") {
            assert!(MANUAL.contains(&format!("`{}", choice.long)), "{}", choice.long);
        }
    }
}

#[test]
fn the_sheet_of_the_readme_gives_the_report_beside_it() {
    let both = README.lines().skip_while(|line| !line.starts_with("    WORD "));
    let both = both.map_while(|line| line.strip_prefix("    "));
    let (mut sheet, mut report) = (String::new(), String::new());
    for line in both {
        let (left, right) = line.split_at(line.len().min(REPORT_COLUMN));
        sheet.push_str(&format!("{left}\n"));
        report.push_str(&if right.is_empty() { String::new() } else { format!("{right}\n") });
    }
    assert_eq!(report.lines().count(), 4);
    assert_eq!(printed(&run(&["run", "-"], sheet.as_bytes())), report);
}
