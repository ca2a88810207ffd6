//! chart and history as a user runs them: the stored charts, the source that they name, and their options.
#![cfg(feature = "proved")]

mod common;

use std::fs;

use common::{failure, printed, run, said, status, stored};
use tools::examples::folder;
use tools::source::Source;

/// What must stand in everything that is drawn or listed.
fn source() -> String {
    Source::Compared { version: hizgrael_cli::VERSION.to_string() }.sentence()
}

/// The names and titles of examples/charts.list.
fn charts() -> Vec<(String, String)> {
    let list = fs::read_to_string(folder().join("charts.list")).unwrap();
    let rows = list.lines().filter(|line| !line.starts_with('#'));
    let parts = rows.map(|row| row.split_once(' ').unwrap());
    parts.map(|(name, title)| (name.to_string(), title.to_string())).collect()
}

#[test]
fn stored_charts_are_what_the_program_draws() {
    assert!(source().contains("its report is the proved engine's"));
    let charts = charts();
    assert_eq!(charts.len(), 4);
    for (name, title) in charts {
        let output = run(&["chart", "--title", &title, &format!("{name}.txt")], b"");
        assert_eq!((status(&output), said(&output)), (0, String::new()), "{name}");
        assert!(
            output.stdout == stored(&name, "svg"),
            "{name}.svg is out of date: run scripts/make-examples"
        );
        assert!(printed(&output).contains(&source()), "{name}");
    }
}

/// `ADD r0 r0`, once.
const SHEET: [u8; 9] = [3, 0x11, 0, 0, 4, 0, 0, 0, 5];

#[test]
fn chart_draws_or_explains() {
    let arguments =
        ["chart", "--title", "a < b", "--name", "t0=only", "--first", "0", "--last", "5", "-"];
    let drawn = run(&arguments, &SHEET);
    assert_eq!((status(&drawn), said(&drawn)), (0, String::new()));
    let picture = printed(&drawn);
    assert!(picture.contains("a &lt; b") && picture.contains(">t0 only<"));
    assert!(picture.contains("Ticks 0 to 0; the whole run has 1."));
    let refusal = "standard input: X 6 1: r8 is no register, they are r0 to r7\n".to_string();
    assert_eq!(failure(&["chart", "-"], &[3, 0x11, 8, 0]), (1, refusal));
}

#[test]
fn the_title_is_the_file_s_name() {
    for html in [&[][..], &["--html"]] {
        let of_file = run(&[&["chart", "worked/p5.txt"], html].concat(), b"");
        assert!(printed(&of_file).contains(">p5.txt<"));
        let of_input = run(&[&["chart", "-"], html].concat(), &SHEET);
        assert!(printed(&of_input).contains(">standard input<"));
    }
}

/// The names of a text are drawn, and `--name` goes over them.
#[test]
fn names_of_the_text_and_of_the_option() {
    let text = b"WORD 1 mark\nTASK guard\n  READ r0 mark\nTASK panel\n  READ r0 mark\nRELEASE 0 guard\nEND\n";
    let drawn = printed(&run(&["chart", "--name", "t1=the-panel", "-"], text));
    assert!(drawn.contains("t0 guard") && drawn.contains("t1 the-panel"));
    assert!(!drawn.contains("t1 panel"));
    let explained = printed(&run(&["explain", "--name=w0=sign", "-"], text));
    assert!(explained.contains("w0 sign") && explained.contains("t0 guard"), "{explained}");
}

#[test]
fn options_that_cannot_be_met() {
    let cases = [
        (vec!["chart", "--first"], "--first takes a value, as in --first TICK"),
        (vec!["chart", "--first", "one", "-"], "--first: 'one' is no number of ticks"),
        (vec!["chart", "--name", "guard", "-"], "--name: 'guard' gives no name, as t4=guard does"),
        (vec!["chart", "--name", "r1=x", "-"], "--name: 'r1=x' gives no name, as t4=guard does"),
        (vec!["chart", "--name", "t0=t1", "-"], "--name: 't1' is no name: it is the number"),
        (vec!["chart", "--name=t0=a", "--name=t0=b", "-"], "--name: t0 is named twice"),
        (vec!["chart", "--wide", "1", "-"], "unknown option '--wide'"),
        (vec!["chart", "--band", "99999999999", "-"], "--band 99999999999 is too large"),
        (vec!["chart", "--html", "--band", "9", "-"], "--band is for the SVG picture"),
        (vec!["history", "--csv", "--json", "-"], "--csv and --json exclude each other"),
        (vec!["history", "--html", "-"], "unknown option '--html'"),
        (vec!["chart", "--first", "1", "-"], "--first 1 lies beyond the run"),
        (vec!["chart", "--band", "0", "-"], "--band 0"),
        (vec!["chart", "--name", "t1=x", "-"], "--name: there is no task t1"),
        (vec!["chart", "--html", "--name", "t1=x", "-"], "--name: there is no task t1"),
        (vec!["history", "--name", "w0=x", "-"], "--name: there is no word w0"),
        (vec!["explain", "--name", "b0=x", "-"], "--name: there is no block b0"),
    ];
    for (arguments, reason) in cases {
        let (status, said) = failure(&arguments, &SHEET);
        let name = arguments[0];
        assert_eq!(status, 2, "{arguments:?}");
        assert!(said.starts_with(&format!("hizgrael {name}: {reason}")), "{said}");
        assert!(said.ends_with(&format!("; see 'hizgrael {name} --help'\n")), "{said}");
        assert_eq!(said.lines().count(), 1, "{said}");
    }
}

#[test]
fn pages_and_lists_name_their_source() {
    let compared = format!("compared with hizgrael {}", hizgrael_cli::VERSION);
    // The page may write the sentence's signs in its own way.
    let in_page = source().split_once("engine's ").unwrap().1.to_string();
    for (arguments, named) in [
        (&["chart", "--html", "cold-room.txt"][..], &in_page),
        (&["history", "cold-room.txt"], &compared),
        (&["history", "--csv", "cold-room.txt"], &compared),
        (&["history", "--json", "cold-room.sheet"], &source()),
    ] {
        let output = run(arguments, b"");
        assert_eq!((status(&output), said(&output)), (0, String::new()), "{arguments:?}");
        assert!(printed(&output).contains(named), "{arguments:?}");
    }
    let csv = run(&["history", "--csv", "cold-room.txt"], b"");
    assert_eq!(run(&["history", "cold-room.txt"], b"").stdout, csv.stdout);
}

/// The limit holds for pictures and lists as for the report.
#[test]
fn pictures_of_a_run_cut_short() {
    let drawn = printed(&run(&["chart", "--limit", "7", "worked/p5.txt"], b""));
    assert!(drawn.contains("Ticks 0 to 6; the whole run has 7."));
    for list in ["--csv", "--json"] {
        let whole = run(&["history", list, "worked/p5.txt"], b"");
        let cut = run(&["history", list, "--limit", "7", "worked/p5.txt"], b"");
        assert_eq!(status(&cut), 0);
        assert_ne!(whole.stdout, cut.stdout);
    }
}
