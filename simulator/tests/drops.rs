//! Dropped releases by task: sheets worked out by hand from change 2 of document 02, and the counts
//! over the corpus, held to the history.
//!
//! In most sheets task 0 is one ADD, a job of one tick, below sheet A's task. The first job of sheet
//! A's task takes 12 ticks and every later one 11.

mod common;

use common::*;
use simulator::contention::Style;
use simulator::drops::drops_counted;
use simulator::generator::{case, valid_sheet, CASES, SEED};
use simulator::history::run_with_history;
use simulator::random::Random;
use simulator::sheet::parse;
use simulator::write::*;

/// Task 0 and sheet A's task above it, with releases at these ticks.
fn two_tasks(lower: &[u16], upper: &[u16]) -> Bytes {
    let of_task = |ticks: &[u16], task| ticks.iter().map(|&tick| (tick, task)).collect();
    let mut releases: Vec<(u16, u8)> = of_task(lower, 0);
    releases.extend::<Vec<_>>(of_task(upper, 1));
    releases.sort_unstable();
    let releases: Bytes = releases.iter().flat_map(|&(tick, task)| release(tick, task)).collect();
    sheet(&[word(12), task(), add(0, 0), task_of_sheet_a(), releases, end()])
}

fn assert_lines(report: &str, lower: TaskLine, upper: TaskLine) {
    assert_eq!((TaskLine::of(report, 0), TaskLine::of(report, 1)), (lower, upper));
    assert_eq!(ticks_done(report), lower.ticks + upper.ticks);
}

fn drops(sheet: &[u8], limit: u64) -> [u32; 2] {
    let report = report_with_limit(sheet, limit);
    [0, 1].map(|task| TaskLine::of(&report, task).dropped)
}

/// The upper task runs up to tick 11. Before tick 12 four still wait behind the lower one's first job.
/// It ends in that tick, so the release at 13 finds three.
#[test]
fn a_drop_is_the_released_task_s_and_not_the_running_one_s() {
    let report = report(&two_tasks(&[0, 1, 2, 3, 4, 5, 12, 13], &[0]));
    assert_lines(&report, TaskLine::finished(6, 6).dropping(2), TaskLine::finished(1, 12));
}

#[test]
fn only_the_higher_task_drops() {
    let report = report(&two_tasks(&[0], &[0, 1, 2, 3, 4, 5]));
    assert_lines(&report, TaskLine::finished(1, 1), TaskLine::finished(5, 56).dropping(1));
}

#[test]
fn both_drop_different_numbers() {
    let report = report(&two_tasks(&[0, 1, 2, 3, 4, 5], &[0, 1, 2, 3, 4, 5, 6, 7]));
    let lower = TaskLine::finished(5, 5).dropping(1);
    assert_lines(&report, lower, TaskLine::finished(5, 56).dropping(3));
}

/// With limit 5 the releases at tick 5 have not arrived: they are not counted, nor are those that wait.
#[test]
fn the_limit_keeps_releases_out() {
    let sheet = two_tasks(&[0, 1, 2, 3, 4, 5], &[0, 1, 2, 3, 4, 5, 6, 7]);
    assert_eq!(drops(&sheet, 5), [0, 0]);
    assert_eq!(drops(&sheet, 6), [1, 1]);
    assert_eq!(drops(&sheet, 7), [1, 2]);
    assert_eq!(drops(&sheet, 8), [1, 3]);
}

/// Also where no job is unfinished any more: the second release waits at limit 12.
#[test]
fn one_that_waits_at_the_limit_is_not_dropped() {
    let sheet = sheet_a_with(&[3]);
    for limit in [4, 11, 12, 13, 23] {
        assert_eq!(TaskLine::of(&report_with_limit(&sheet, limit), 0).dropped, 0);
    }
}

/// Task U at the highest version: each job is spent in its 20th tick, with four waiting behind it.
#[test]
fn a_drop_behind_a_spent_job() {
    let releases: Bytes = (0..6).flat_map(|tick| release(tick, 0)).collect();
    let report = report(&sheet(&[block(16_777_215, [40; 8]), task_u(), releases, end()]));
    assert_eq!(TaskLine::of(&report, 0), TaskLine::spent(5, 100).dropping(1));
}

/// A job that never runs drops too: sheet A's task has every tick.
#[test]
fn a_task_that_has_no_tick_drops() {
    let report = report_with_limit(&two_tasks(&[0, 1, 2, 3, 4, 5, 6], &[0]), 12);
    assert_lines(&report, TaskLine::default().dropping(2), TaskLine::finished(1, 12));
}

#[test]
fn the_counts_are_the_history_s_over_the_corpus() {
    for index in 0..CASES {
        let case = case(SEED, index);
        if let Err(fault) = drops_counted(&case.sheet, case.limit) {
            panic!("case {index}: {fault}");
        }
    }
}

/// Small sheets with bursts of releases, cut short after every tick.
#[test]
fn the_counts_are_the_history_s_after_every_tick() {
    for index in 0..40 {
        let sheet = valid_sheet(&mut Random::new(SEED, index), Style::Bursts);
        for limit in 0..200 {
            if let Err(fault) = drops_counted(&sheet, limit) {
                panic!("sheet {index}, limit {limit}: {fault}");
            }
        }
    }
}

/// The last field of a T line is its task's count of releases that the history has as dropped.
#[test]
fn the_report_has_the_counts() {
    for index in 0..200 {
        let bytes = valid_sheet(&mut Random::new(SEED, index), Style::Bursts);
        let sheet = parse(&bytes).unwrap();
        let history = run_with_history(&sheet, LIMIT as u32).1;
        let report = report(&bytes);
        for task in 0..sheet.bodies.len() {
            let own = history.releases.iter().filter(|release| release.task == task);
            let dropped = own.filter(|release| release.dropped).count();
            assert_eq!(TaskLine::of(&report, task as u8).dropped, dropped as u32, "sheet {index}");
        }
    }
}
