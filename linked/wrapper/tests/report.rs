//! A report in a buffer of its own, on stored sheets.
#![cfg(feature = "std")]

use std::fs::read;
use std::path::PathBuf;

use hizgrael::{Refusal, TOP_LIMIT};

fn worked(name: &str) -> Vec<u8> {
    read(PathBuf::from(env!("CARGO_MANIFEST_DIR")).join("../../examples/worked").join(name))
        .unwrap()
}

#[test]
fn a_report_is_the_stored_one() {
    for name in ["sheet-a", "two-tasks-u", "eight-blocks"] {
        let report = hizgrael::report(&worked(&format!("{name}.sheet")), TOP_LIMIT).unwrap();
        assert_eq!(report.as_bytes(), worked(&format!("{name}.report")), "{name}");
    }
}

#[test]
fn a_refusal_is_handed_on() {
    let refused = |number, place| Err(Refusal { number, place });
    assert_eq!(hizgrael::report(&worked("row-6.sheet"), TOP_LIMIT), refused(6, 1));
    assert_eq!(hizgrael::report(&worked("sheet-a.sheet"), TOP_LIMIT + 1), refused(9, 0));
}
