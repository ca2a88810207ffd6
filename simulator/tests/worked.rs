//! All worked figures of document 01, most of them from examples/worked: the refusal table, sheet A,
//! P1 to P10 and two tasks U; those of changes 1 to 3 and 5 there too.

mod common;

use std::fs;
use std::path::Path;

use common::*;
use simulator::observer::NoObserver;
use simulator::write::*;
use simulator::{check, run, run_observed};

fn sheet_a() -> Bytes {
    bytes(
        "01 00 00 00 0C 03 10 01 00 00 00 0C 10 02 00 00 00 05 13 00 01 02 14 00 \
         04 00 00 00 05",
    )
}

/// As changes 2 and 3 have it.
const REPORT_A: &str = "W 0 5\nT 0 1 0 0 12 0\nR 0 1 12 5 0 0 0 0 0\nE 12\n";

#[test]
fn refusal_table_of_the_sheet() {
    for (sheet, expected) in refusal_rows() {
        assert_eq!(check(&sheet), expected);
        // Sheet faults go before 9 and 10, and the buffer is unchanged.
        let mut buffer = [0xAB; 3];
        assert_eq!(run(&sheet, 65_536, &mut buffer), expected);
        assert_eq!(buffer, [0xAB; 3]);
    }
}

#[test]
fn refusal_table_of_the_call() {
    let needed = REPORT_A.len();
    assert_eq!(run(&sheet_a(), 65_536, &mut []), refusal(9, 0));
    assert_eq!(run(&sheet_a(), u64::MAX, &mut [0; 100]), refusal(9, 0));
    assert_eq!(run(&sheet_a(), LIMIT, &mut []), refusal(10, needed));

    let mut short = vec![0xAB; needed - 1];
    assert_eq!(run(&sheet_a(), LIMIT, &mut short), refusal(10, needed));
    assert_eq!(short, vec![0xAB; needed - 1]);
}

#[test]
fn p1_sheet_a_alone() {
    let written = sheet(&[word(12), task_of_sheet_a(), release(0, 0), end()]);
    assert_eq!(written, sheet_a());
    assert_eq!(check(&sheet_a()), refusal(0, 0));
    assert_eq!(report(&sheet_a()), REPORT_A);

    let length = REPORT_A.len();
    let mut exact = vec![0xAB; length];
    assert_eq!(run(&sheet_a(), LIMIT, &mut exact), refusal(0, length));
    assert_eq!(exact, REPORT_A.as_bytes());

    let mut larger = vec![0xAB; length + 5];
    assert_eq!(run(&sheet_a(), LIMIT, &mut larger), refusal(0, length));
    assert_eq!(&larger[..length], REPORT_A.as_bytes());
    assert_eq!(larger[length..], [0xAB; 5]);
}

/// The sheets of examples/worked with their reports, worked out by hand.
#[test]
fn every_stored_report() {
    let folder = Path::new(env!("CARGO_MANIFEST_DIR")).join("../examples/worked");
    let mut cases = 0;
    for entry in fs::read_dir(folder).unwrap() {
        let path = entry.unwrap().path();
        if path.extension().is_some_and(|extension| extension == "sheet") {
            let printed = run_observed(&fs::read(&path).unwrap(), LIMIT, &mut NoObserver)
                .unwrap_or_else(|refusal| format!("X {} {}\n", refusal.number, refusal.place));
            let stored = fs::read_to_string(path.with_extension("report")).unwrap();
            assert_eq!(printed, stored, "{}", path.display());
            cases += 1;
        }
    }
    assert_eq!(cases, 42);
}

#[test]
fn p8_limit_0() {
    let report = report_with_limit(&sheet_a(), 0);
    assert_eq!(report, "W 0 12\nT 0 0 0 0 0 0\nR 0 0 0 0 0 0 0 0 0\nE 0\n");
}
