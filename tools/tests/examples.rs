//! The stored examples: made from their texts, the round trip, document 01's figures, their page.

#[path = "../../simulator/tests/common/lines.rs"]
mod lines;

use std::fs;

use lines::task_lines;
use simulator::observer::NoObserver;
use simulator::{run_observed, TOP_LIMIT};
use tools::decode::decode;
use tools::encode::encode;
use tools::examples::{folder, names};

fn text(name: &str) -> String {
    fs::read_to_string(folder().join(format!("{name}.txt"))).unwrap()
}

fn sheet(name: &str) -> Vec<u8> {
    fs::read(folder().join(format!("{name}.sheet"))).unwrap()
}

/// What the second simulator prints.
fn printed(name: &str) -> String {
    run_observed(&sheet(name), TOP_LIMIT, &mut NoObserver)
        .unwrap_or_else(|refusal| format!("X {} {}\n", refusal.number, refusal.place))
}

#[test]
fn every_stored_sheet_is_made_from_its_text() {
    let names = names().unwrap();
    assert_eq!(names.len(), 45);
    for name in names {
        let made = encode(&text(&name)).unwrap().bytes;
        assert!(sheet(&name) == made, "{name}.sheet is out of date: run scripts/make-examples");
    }
}

#[test]
fn text_to_bytes_to_text_to_bytes() {
    for name in names().unwrap() {
        let bytes = encode(&text(&name)).unwrap().bytes;
        assert_eq!(bytes, sheet(&name), "{name}");
        let encoded = encode(&text(&name)).unwrap();
        assert_eq!(encode(&decode(&bytes, &encoded.names)).unwrap().bytes, bytes, "{name}");
    }
}

/// Document 01's own bytes: sheet A and the small inputs of the refusal table.
#[test]
fn sheets_have_the_bytes_of_document_01() {
    let words = ["01 00 00 00 00"; 33].join(" ");
    let quoted = [
        (
            "sheet-a",
            "01 00 00 00 0C 03 10 01 00 00 00 0C 10 02 00 00 00 05 13 00 01 02 14 00 04 00 00 00 05",
        ),
        ("row-1", "FF"),
        ("row-2", "01 00 00"),
        ("row-2-empty", ""),
        ("row-3", "03 10 00 00 00 00 05 05 00"),
        ("row-4", "05"),
        ("row-5", words.as_str()),
        ("row-6", "03 11 08 00"),
        ("row-7", "01 00 00 00 00 03 13 00 00 01 13 00 00 01"),
        ("row-8", "03 11 00 00 04 00 02 00 04 00 01 00"),
    ];
    for (name, bytes) in quoted {
        assert_eq!(hexadecimal(&sheet(&format!("worked/{name}"))), bytes, "{name}");
    }
}

fn hexadecimal(bytes: &[u8]) -> String {
    let bytes: Vec<String> = bytes.iter().map(|byte| format!("{byte:02X}")).collect();
    bytes.join(" ")
}

/// A figure of a report: the start of its line, the place of the number after it, the number.
type Figure = (&'static str, usize, u32);

/// What the other examples are there to show. R lines begin with the answer; B lines: values from 1.
const OWN: [(&str, &[Figure]); 2] = [
    // The defrost has begun and compressor 2 runs; the guard's picture is one.
    ("cold-room", &[("W 1", 0, 2), ("W 2", 0, 1), ("W 3", 0, 0), ("R 4", 0, 1)]),
    // Every update is there.
    ("contended-transaction", &[("B 0", 1, 464), ("B 1", 1, 1350)]),
];

fn assert_figures(name: &str, figures: &[Figure]) {
    let report = printed(name);
    for &(start, place, number) in figures {
        let start = format!("{start} ");
        let line = report.lines().find_map(|line| line.strip_prefix(&start)).unwrap();
        let found = line.split(' ').nth(place).unwrap();
        assert_eq!(found, number.to_string(), "{name}, {start}{line}");
    }
}

#[test]
fn other_reports_show_what_they_are_there_for() {
    for (name, figures) in OWN {
        assert_figures(name, figures);
    }
    // All four releases of the guard became jobs, and no task's was dropped; the move lost three attempts.
    let cold_room = task_lines(&printed("cold-room"));
    assert_eq!(cold_room[4].finished, 4);
    assert!(cold_room.iter().all(|task| task.dropped == 0));
    assert_eq!(task_lines(&printed("contended-transaction"))[0].lost, 3);
}

#[test]
fn the_page_has_every_example() {
    let page = fs::read_to_string(folder().join("README.md")).unwrap();
    let rows = page.lines().filter(|line| line.starts_with("| ") && !line.starts_with("| Example"));
    let mut listed: Vec<&str> = rows.map(|row| row.split('|').nth(1).unwrap().trim()).collect();
    listed.sort_unstable();
    assert_eq!(listed, names().unwrap());
    for (name, _) in OWN {
        let report = format!("\n\n    {}\n", printed(name).trim_end().replace('\n', "\n    "));
        assert!(page.contains(&report), "{name}");
    }
}
