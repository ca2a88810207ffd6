//! The blocks that COMMITs find touched: the worked figures of change 5 of document 02 cut short where
//! it matters, what COMMITs gather over the corpus, and that the corpus has enough of each kind.

mod common;

use common::*;
use simulator::contention::Style;
use simulator::coverage::Coverage;
use simulator::gathered::gathered_rising;
use simulator::generator::{case, valid_sheet, CASES, SEED};
use simulator::random::Random;
use simulator::sheet::parse;
use simulator::touched_coverage::TouchedCoverage;

/// The gate's comparison has four times as many cases.
const LEAST: u64 = 12;

/// The rows that are not 0, without what stands in front of each.
fn kinds(name: &str) -> Vec<(String, u64)> {
    let mut coverage = TouchedCoverage::default();
    coverage.take(&parse(&worked(name)).unwrap(), LIMIT as u32);
    let rows = coverage.rows().filter(|&(_, count)| count > 0);
    rows.map(|(name, count)| (name.replace("COMMIT touched ", ""), count)).collect()
}

fn assert_kinds(name: &str, expected: &[(&str, u64)]) {
    let found = kinds(name);
    let found: Vec<(&str, u64)> =
        found.iter().map(|(kind, count)| (kind.as_str(), *count)).collect();
    assert_eq!(found, expected, "{name}");
}

/// Counted by hand from the texts.
#[test]
fn kinds_of_the_worked_figures() {
    // Blocks 15, 0, 7; then 1, 2; and t1's block 0.
    let touched = [
        ("One", 1),
        ("Two", 1),
        ("ThreeToSeven", 1),
        ("LowestAbove0", 1),
        ("Block15", 1),
        ("Blocks0And15", 1),
        ("Gap", 1),
        ("NotInRisingOrder", 1),
    ];
    assert_kinds("touched-blocks", &touched);
    // Twice: block 3, then 0 and 15.
    let spent = [
        ("One", 2),
        ("Two", 2),
        ("LowestAbove0", 2),
        ("Block15", 2),
        ("Blocks0And15", 2),
        ("Gap", 2),
        ("SpentByTheHighest", 2),
        ("SpentByBlock15", 2),
    ];
    assert_kinds("spent-at-the-last-block", &spent);
    // The stale attempt does not come to COMMIT, the rejected one and the last do; t1 twice block 1.
    let eight = [
        ("One", 2),
        ("Eight", 2),
        ("LowestAbove0", 2),
        ("Block15", 2),
        ("Blocks0And15", 2),
        ("Gap", 2),
        ("NotInRisingOrder", 2),
        ("RejectedOfThree", 1),
    ];
    assert_kinds("eight-blocks", &eight);
    let alone = [
        ("One", 1),
        ("LowestAbove0", 1),
        ("Block15", 1),
        ("Block15Alone", 1),
        ("LastVersionOnlyRead", 1),
    ];
    assert_kinds("block-15-read", &alone);
}

/// touched-blocks: tick 71 is the Commit of t0. Before it blocks 0 and 15 are as they were, after it
/// both are new, though their Clean is still to come.
#[test]
fn a_limit_around_the_commit_of_three_blocks() {
    let lines = |limit| {
        let report = report_with_limit(&worked("touched-blocks"), limit);
        [0, 7, 15].map(|block| numbers(&report, &format!("B {block}"))[..3].to_vec())
    };
    assert_eq!(lines(71), [[5, 10, 11], [9, 70, 71], [2, 150, 151]]);
    assert_eq!(lines(72), [[6, 2000, 11], [9, 70, 71], [3, 1000, 151]]);
}

/// spent-at-the-last-block: tick 56 is the COMMIT that is spent, and the job that waited does its first
/// LOAD in tick 57.
#[test]
fn a_limit_around_a_spent_commit() {
    let after = |limit| {
        let report = report_with_limit(&worked("spent-at-the-last-block"), limit);
        (TaskLine::of(&report, 0), registers(&report, 0)[..2].to_vec())
    };
    assert_eq!(after(56), (TaskLine::finished(0, 56), vec![1, 1]));
    assert_eq!(after(57), (TaskLine::spent(1, 57), vec![1, 1]));
    assert_eq!(after(58), (TaskLine::spent(1, 58), vec![0, 1]));
}

#[test]
fn what_commits_gather_over_the_corpus() {
    for index in 0..CASES {
        let case = case(SEED, index);
        if let Err(fault) = gathered_rising(&case.sheet, case.limit) {
            panic!("case {index}: {fault}");
        }
    }
}

#[test]
fn what_commits_gather_after_every_tick() {
    for index in 0..10 {
        let sheet = valid_sheet(&mut Random::new(SEED, index), Style::Wide);
        for limit in 0..400 {
            if let Err(fault) = gathered_rising(&sheet, limit) {
                panic!("sheet {index}, limit {limit}: {fault}");
            }
        }
    }
}

#[test]
fn the_corpus_has_enough_of_each_kind() {
    let mut coverage = Coverage::new();
    for index in 0..CASES {
        coverage.take(&case(SEED, index));
    }
    let rows = coverage.rows().into_iter().filter(|(name, _)| name.starts_with("COMMIT touched"));
    for (name, count) in rows {
        assert!(count >= LEAST, "{count} times {name}");
    }
}
