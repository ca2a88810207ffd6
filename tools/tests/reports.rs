//! Reports explained: hand-written sentences for the reports of some examples, and their small cases.

use std::fs;

use simulator::generator::{case, SEED};
use simulator::observer::NoObserver;
use simulator::{run_observed, TOP_LIMIT};
use tools::encode::encode;
use tools::examples::folder;
use tools::names::Names;
use tools::report::explained;

const REGISTERS: &str = "Registers: as the job that the task started last has left them so far. Each job starts with all of them 0.";
const SPENT: &str = "Spent: the job ended at a COMMIT that would have taken a block past version 16777215. It is not among the finished ones.";
const LOST: &str = "Lost: a transaction's attempt was done over, as a higher task came in between: a version was stale, or its COMMIT was rejected.";
const TICKS: &str = "The ticks of spent jobs and of lost attempts are among the ticks used.";
const DROPPED: &str = "Dropped: the release found its task at work and four others waiting. It started no job and does not wait.";

/// The report of an example, explained with its names.
fn example(name: &str) -> String {
    let text = fs::read_to_string(folder().join(format!("{name}.txt"))).unwrap();
    let encoded = encode(&text).unwrap();
    let report = run_observed(&encoded.bytes, TOP_LIMIT, &mut NoObserver).unwrap();
    explained(&report, &encoded.names, TOP_LIMIT)
}

fn plain(report: &str) -> String {
    explained(report, &Names::default(), TOP_LIMIT)
}

/// 52 + 18 + 32 + 14 + 160 ticks are used, so 3 of 279 are idle.
#[test]
fn cold_room() {
    let expected = format!(
        "\
W 0 2572                   w0 setpoint is 2572
W 1 2                      w1 compressor-1 is 2
W 2 1                      w2 compressor-2 is 1
W 3 0                      w3 defrost-mark-1 is 0
W 4 0                      w4 defrost-mark-2 is 0
B 0 8 32 30 0 0 0 0 0 0    b0 logbook-1: version 8, values 32 30 0 0 0 0 0 0
B 1 5 30 32 0 0 0 0 0 0    b1 logbook-2: version 5, values 30 32 0 0 0 0 0 0
T 0 1 0 0 52 0             t0 logbook: 1 job finished, 0 spent, 0 attempts lost, 52 ticks used, 0 releases dropped
R 0 0 32 32 0 0 0 0 1      registers of t0 logbook: r1 32, r2 32, r7 1, the others 0
T 1 1 0 0 18 0             t1 hand-over: 1 job finished, 0 spent, 0 attempts lost, 18 ticks used, 0 releases dropped
R 1 1 1 0 0 0 0 0 0        registers of t1 hand-over: r0 1, r1 1, the others 0
T 2 2 0 0 32 0             t2 defrost: 2 jobs finished, 0 spent, 0 attempts lost, 32 ticks used, 0 releases dropped
R 2 1 1 0 2 0 0 0 0        registers of t2 defrost: r0 1, r1 1, r3 2, the others 0
T 3 1 0 0 14 0             t3 panel: 1 job finished, 0 spent, 0 attempts lost, 14 ticks used, 0 releases dropped
R 3 1 2552 2572 0 0 0 0 0  registers of t3 panel: r0 1, r1 2552, r2 2572, the others 0
T 4 4 0 0 160 0            t4 guard: 4 jobs finished, 0 spent, 0 attempts lost, 160 ticks used, 0 releases dropped
R 4 1 2 1 0 0 0 0 0        registers of t4 guard: r0 1, r1 2, r2 1, the others 0
E 279                      279 ticks in all, 3 of them idle

{REGISTERS}
"
    );
    assert_eq!(example("cold-room"), expected);
}

/// 176 + 76 + 43 ticks are used: all 295.
#[test]
fn contended_transaction() {
    let expected = format!(
        "\
B 0 103 464 0 0 0 0 0 0 2           b0 room-1: version 103, values 464 0 0 0 0 0 0 2
B 1 202 1350 0 0 0 0 0 0 0          b1 room-2: version 202, values 1350 0 0 0 0 0 0 0
T 0 1 0 3 176 0                     t0 move: 1 job finished, 0 spent, 3 attempts lost, 176 ticks used, 0 releases dropped
R 0 0 464 1350 0 0 0 4294967246 50  registers of t0 move: r1 464, r2 1350, r6 4294967246, r7 50, the others 0
T 1 2 0 0 76 0                      t1 raise: 2 jobs finished, 0 spent, 0 attempts lost, 76 ticks used, 0 releases dropped
R 1 0 514 2 0 0 0 7 1               registers of t1 raise: r1 514, r2 2, r6 7, r7 1, the others 0
T 2 1 0 0 43 0                      t2 grant: 1 job finished, 0 spent, 0 attempts lost, 43 ticks used, 0 releases dropped
R 2 0 507 1300 0 0 0 1000 0         registers of t2 grant: r1 507, r2 1300, r6 1000, the others 0
E 295                               295 ticks in all, none of them idle

{REGISTERS}
{LOST}
{TICKS}
"
    );
    assert_eq!(example("contended-transaction"), expected);
}

#[test]
fn drops_of_two_tasks() {
    let expected = format!(
        "\
W 0 5                 w0 is 5
T 0 5 0 0 10 2        t0: 5 jobs finished, 0 spent, 0 attempts lost, 10 ticks used, 2 releases dropped
R 0 10 0 0 0 0 0 0 0  registers of t0: r0 10, the others 0
T 1 5 0 0 56 1        t1: 5 jobs finished, 0 spent, 0 attempts lost, 56 ticks used, 1 release dropped
R 1 0 12 5 0 0 0 0 0  registers of t1: r1 12, r2 5, the others 0
E 66                  66 ticks in all, none of them idle

{REGISTERS}
{DROPPED}
"
    );
    assert_eq!(example("worked/drops-of-two-tasks"), expected);
}

#[test]
fn spent_after_stale() {
    let expected = format!(
        "\
B 0 16777215 7 0 0 0 0 0 0 0  b0: version 16777215, values 7 0 0 0 0 0 0 0
T 0 0 1 1 27 0                t0: 0 jobs finished, 1 spent, 1 attempt lost, 27 ticks used, 0 releases dropped
R 0 0 0 0 0 0 0 0 0           registers of t0: all 0
T 1 1 0 0 25 0                t1: 1 job finished, 0 spent, 0 attempts lost, 25 ticks used, 0 releases dropped
R 1 7 0 0 0 0 0 0 0           registers of t1: r0 7, the others 0
E 52                          52 ticks in all, none of them idle

{REGISTERS}
{SPENT}
{LOST}
{TICKS}
"
    );
    assert_eq!(example("worked/spent-after-stale"), expected);
}

/// Each sentence of the legend stands only where its word has a number above 0.
#[test]
fn the_legend_has_what_occurs() {
    let legend = |counts: &str| {
        let text = plain(&format!("T 0 0 {counts}\nE 9\n"));
        text.lines().skip(3).map(str::to_string).collect::<Vec<String>>()
    };
    assert_eq!(legend("0 0 9 0"), [REGISTERS]);
    assert_eq!(legend("1 0 9 0"), [REGISTERS, SPENT, TICKS]);
    assert_eq!(legend("0 1 9 0"), [REGISTERS, LOST, TICKS]);
    assert_eq!(legend("0 0 9 1"), [REGISTERS, DROPPED]);
    assert_eq!(legend("2 2 9 2"), [REGISTERS, SPENT, LOST, TICKS, DROPPED]);
}

/// A run as long as its limit may have been stopped by it.
#[test]
fn a_run_up_to_its_limit() {
    let sentence = "The run is as long as the limit allows: jobs may be unfinished, and releases may wait or be still to come.";
    let legend = |limit| {
        let text = explained("E 7\n", &Names::default(), limit);
        text.lines().skip(2).map(str::to_string).collect::<Vec<String>>()
    };
    assert_eq!(legend(7), [sentence]);
    assert_eq!(legend(8), [""; 0]);
}

#[test]
fn counts_of_none_and_one() {
    let task = |ticks: &str| format!("T 0 1 0 1 {ticks} 1\n");
    let first = |text: String| text.lines().next().unwrap().to_string();
    let last = |text: String| text.lines().nth(1).unwrap().to_string();
    let meaning = "t0: 1 job finished, 0 spent, 1 attempt lost, 1 tick used, 1 release dropped";
    assert_eq!(first(plain(&task("1"))), format!("T 0 1 0 1 1 1  {meaning}"));
    let ticks = |used: &str, all: &str| last(plain(&format!("{}E {all}\n", task(used))));
    assert_eq!(ticks("0", "0"), "E 0            0 ticks in all");
    assert_eq!(ticks("1", "1"), "E 1            1 tick in all, not idle");
    assert_eq!(ticks("0", "1"), "E 1            1 tick in all, idle");
    assert_eq!(ticks("0", "2"), "E 2            2 ticks in all, all of them idle");
    assert_eq!(ticks("1", "2"), "E 2            2 ticks in all, 1 of them idle");
    assert_eq!(ticks("2", "2"), "E 2            2 ticks in all, none of them idle");
    let registers = |line: &str| first(plain(line));
    assert_eq!(registers("R 0 1 2 3 4 5 6 7 0"), "R 0 1 2 3 4 5 6 7 0  registers of t0: r0 1, r1 2, r2 3, r3 4, r4 5, r5 6, r6 7, the other 0");
    assert_eq!(
        registers("R 0 1 2 3 4 5 6 7 8"),
        "R 0 1 2 3 4 5 6 7 8  registers of t0: r0 1, r1 2, r2 3, r3 4, r4 5, r5 6, r6 7, r7 8"
    );
}

/// The meaning of a line that is too long for the columns stands below it.
#[test]
fn long_lines() {
    let values = ["4294967295"; 8].join(" ");
    let report = format!("W 0 1\nB 15 16777215 {values}\nE 0\n");
    let expected = format!(
        "W 0 1  w0 is 1\nB 15 16777215 {values}\n       b15: version 16777215, values {values}\nE 0    0 ticks in all\n"
    );
    assert_eq!(plain(&report), expected);
}

#[test]
fn what_is_no_report_is_left_as_it_is() {
    for text in ["", "X 6 1\n", "W\n", "W 0\n", "T 0 1 2\n", "hello there\n", "W 0 99999999999\n"] {
        assert_eq!(plain(text), text);
    }
}

/// Every line of every report has a meaning, and the report can be read off the left side again.
#[test]
fn the_reports_of_the_corpus() {
    let mut explained_reports = 0;
    for index in 0..400 {
        let case = case(SEED, index);
        let limit = case.limit.min(TOP_LIMIT);
        let Ok(report) = run_observed(&case.sheet, limit, &mut NoObserver) else { continue };
        explained_reports += 1;
        let text = plain(&report);
        let mut lines = text.lines();
        for line in report.lines() {
            let found = lines.next().unwrap();
            let meaning = found.strip_prefix(line).unwrap().trim();
            let mut below = || lines.next().filter(|below| below.starts_with(' '));
            assert!(!meaning.is_empty() || below().is_some(), "{line}");
        }
        assert_eq!(lines.next(), Some(""));
        assert_eq!(lines.next(), Some(REGISTERS));
        assert!(text.lines().all(|line| !line.ends_with(' ')));
    }
    assert!(explained_reports > 200, "{explained_reports}");
}
