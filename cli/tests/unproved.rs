//! The program built without the proved library: every answer is labelled, however quiet it should be.
#![cfg(not(feature = "proved"))]

mod common;

use common::{failure, printed, report, run, said, status};

const LABEL: &str =
    "NOT PROVED: answered by the second simulator (this program was built without the proved library)\n";
const SOURCE: &str = "NOT PROVED: from the second simulator alone";

#[test]
fn every_subcommand_labels_its_answer() {
    for subcommand in common::SUBCOMMANDS {
        for quiet in [&[][..], &["--quiet"]] {
            let output = run(&[&[subcommand, "worked/p5.txt"], quiet].concat(), b"");
            assert_eq!((status(&output), said(&output)), (0, LABEL.to_string()), "{subcommand}");
            let refused = run(&[&[subcommand, "worked/row-6.txt"], quiet].concat(), b"");
            assert_eq!(status(&refused), 1, "{subcommand}");
            assert!(
                said(&refused).starts_with("worked/row-6.txt: X 6 1, line 4: r8 is no register")
            );
            assert!(said(&refused).ends_with(&format!("\n{LABEL}")), "{}", said(&refused));
        }
    }
}

/// What is printed for people has the label in it as well; the report alone is bare.
#[test]
fn what_is_printed_is_labelled() {
    let check = printed(&run(&["check", "worked/sheet-a.txt"], b""));
    assert!(check.starts_with("accepted (NOT PROVED): 29 bytes, "), "{check}");
    let explained = printed(&run(&["explain", "worked/sheet-a.txt"], b""));
    assert!(explained.starts_with(LABEL), "{explained}");
    let decoded = printed(&run(&["decode", "worked/sheet-a.txt"], b""));
    assert!(decoded.ends_with(&format!("# check: accepted\n# {LABEL}")), "{decoded}");
    for arguments in [
        &["chart", "worked/p5.txt"][..],
        &["chart", "--html", "worked/p5.txt"],
        &["history", "--csv", "worked/p5.txt"],
        &["history", "--json", "worked/p5.txt"],
    ] {
        let shown = printed(&run(arguments, b""));
        let label = if arguments.contains(&"--csv") { ",NOT PROVED\n" } else { SOURCE };
        assert!(shown.contains(label), "{arguments:?}");
        assert!(!shown.contains("proved engine's") && !shown.contains("compared"), "{arguments:?}");
    }
    let version = printed(&run(&["--version"], b""));
    assert!(version.starts_with(&format!("hizgrael {}, NOT PROVED: ", hizgrael_cli::VERSION)));
}

#[test]
fn the_report_is_the_second_simulator_s() {
    for name in ["worked/sheet-a", "worked/p5", "worked/drops-of-two-tasks"] {
        let output = run(&["run", &format!("{name}.sheet")], b"");
        assert_eq!(Some(printed(&output)), report(name));
    }
    let built = run(&["build", "worked/sheet-a.txt"], b"");
    assert_eq!(built.stdout, common::stored("worked/sheet-a", "sheet"));
}

/// Where nothing was answered, nothing is labelled.
#[test]
fn what_is_not_done_has_no_label() {
    let expected = "missing: there is no such file\n".to_string();
    assert_eq!(failure(&["run", "missing"], b""), (2, expected));
}
