//! Releases that wait: sheets worked out by hand from change 1 of document 02, and the rule over
//! the corpus.
//!
//! Sheet A's first job takes ticks 0 to 11. It leaves 5, so every later one finds its word
//! different and takes 11: LOAD, LOAD, PAIR, Start, Test, Load, Look, Save, Fail, Test, Commit.

mod common;

use common::*;
use simulator::generator::{case, CASES, SEED};
use simulator::history::{run_with_history, Arrived};
use simulator::sheet::{parse, Release};
use simulator::write::*;
use simulator::TOP_LIMIT;

/// The registers at the end of a job that answers no.
const ANSWER_NO: [u32; 3] = [0, 12, 5];

/// Five wait to run or run, the sixth is dropped: 12 + 4 * 11 ticks.
#[test]
fn six_releases_of_sheet_a() {
    let six = report(&sheet_a_with(&[1, 2, 3, 4, 5]));
    assert_eq!(six, report_of_sheet_a(TaskLine::finished(5, 56).dropping(1), ANSWER_NO));
}

/// Four wait without a drop, the fifth waiting one and all after it are dropped.
#[test]
fn drops_begin_with_the_fifth() {
    let five = report(&sheet_a_with(&[1, 2, 3, 4]));
    assert_eq!(five, report_of_sheet_a(TaskLine::finished(5, 56), ANSWER_NO));
    let eight = report(&sheet_a_with(&[1, 2, 3, 4, 5, 6, 11]));
    assert_eq!(eight, report_of_sheet_a(TaskLine::finished(5, 56).dropping(3), ANSWER_NO));
}

/// The run goes on though no release is to come and no job is unfinished after tick 11.
#[test]
fn the_run_goes_on_while_one_waits() {
    let two = report(&sheet_a_with(&[3]));
    assert_eq!(two, report_of_sheet_a(TaskLine::finished(2, 23), ANSWER_NO));
}

/// At limit 12 the second has not started, at 13 it has: its registers are 0 and r1 is loaded.
#[test]
fn the_limit_just_before_and_after_a_start() {
    let sheet = sheet_a_with(&[3]);
    let before = report_of_sheet_a(TaskLine::finished(1, 12), [1, 12, 5]);
    assert_eq!(report_with_limit(&sheet, 12), before);
    let after = report_of_sheet_a(TaskLine::finished(1, 13), [0, 12, 0]);
    assert_eq!(report_with_limit(&sheet, 13), after);
}

/// Task U at the highest version is spent in its 20th tick (P10), and so is the one behind it.
#[test]
fn a_spent_job_with_one_waiting() {
    let releases = sheet(&[release(0, 0), release(5, 0)]);
    let block = block(16_777_215, [40, 0, 0, 0, 0, 0, 0, 0]);
    let sheet = sheet(&[block, task_u(), releases, end()]);
    let contents = "B 0 16777215 40 0 0 0 0 0 0 0\n";
    let expected = |spent, ticks, registers| {
        let task = TaskLine::spent(spent, ticks).written(0);
        format!("{contents}{task}R 0 {registers} 0 0 0 0 0 0\n{}", end_line(ticks))
    };
    assert_eq!(report_with_limit(&sheet, 20), expected(1, 20, "41 1"));
    assert_eq!(report_with_limit(&sheet, 21), expected(1, 21, "0 0"));
    assert_eq!(report(&sheet), expected(2, 40, "41 1"));
}

/// The ticks before which the jobs of these releases started, for sheet A.
fn starts(ticks: &[u16]) -> Vec<Option<u32>> {
    let sheet = parse(&sheet_a_with(ticks)).unwrap();
    let history = run_with_history(&sheet, LIMIT as u32).1;
    history.releases.iter().map(|release| release.started).collect()
}

/// In the tick in which the job ends it is still unfinished: the release waits, for one tick.
#[test]
fn a_release_as_the_job_ends_and_in_the_next_tick() {
    assert_eq!(starts(&[11]), [Some(0), Some(12)]);
    assert_eq!(starts(&[12]), [Some(0), Some(12)]);
    // The one that waited starts first, so the other waits for it: 12 + 11 + 11 ticks.
    assert_eq!(starts(&[11, 12]), [Some(0), Some(12), Some(23)]);
    let three = report(&sheet_a_with(&[11, 12]));
    assert_eq!(three, report_of_sheet_a(TaskLine::finished(3, 34), ANSWER_NO));
}

/// With four waiting, a release before tick 11 is dropped; before tick 12 a place has come free.
#[test]
fn the_place_of_the_one_that_starts_is_free() {
    let full = report(&sheet_a_with(&[1, 2, 3, 4, 11]));
    assert_eq!(full, report_of_sheet_a(TaskLine::finished(5, 56).dropping(1), ANSWER_NO));
    let freed = report(&sheet_a_with(&[1, 2, 3, 4, 12]));
    assert_eq!(freed, report_of_sheet_a(TaskLine::finished(6, 67), ANSWER_NO));
    // One place has come free, not two.
    let once = report(&sheet_a_with(&[1, 2, 3, 4, 12, 13]));
    assert_eq!(once, report_of_sheet_a(TaskLine::finished(6, 67).dropping(1), ANSWER_NO));
}

#[test]
fn the_oldest_starts_first() {
    let sheet = parse(&sheet_a_with(&[3, 7])).unwrap();
    let waiting = |limit| -> Vec<u16> {
        let machine = run_with_history(&sheet, limit).0;
        let ticks = machine.waiting.of(0).map(|release: &Release| release.tick).collect();
        ticks
    };
    assert_eq!(waiting(7), [3]);
    assert_eq!(waiting(8), [3, 7]);
    assert_eq!(waiting(12), [3, 7]);
    assert_eq!(waiting(13), [7]);
    assert_eq!(waiting(24), []);
}

/// Four wait beside the unfinished job though it has not run yet: a higher task runs ticks 0 to 11.
#[test]
fn waiting_behind_a_job_that_has_not_run() {
    let low = sheet(&[task(), add(0, 0)]);
    let more: Bytes = (1..=5).flat_map(|tick| release(tick, 0)).collect();
    let releases = sheet(&[release(0, 0), release(0, 1), more]);
    let report = report(&sheet(&[word(12), low, task_of_sheet_a(), releases, end()]));
    assert_eq!(TaskLine::of(&report, 0), TaskLine::finished(5, 5).dropping(1));
    assert_eq!(TaskLine::of(&report, 1), TaskLine::finished(1, 12));
    assert_eq!(ticks_done(&report), 17);
}

/// Each task has a queue of its own, and the higher one's waiting jobs all go before the lower one.
#[test]
fn a_queue_for_each_task() {
    let low = sheet(&[task(), add(0, 0)]);
    let releases: Bytes =
        (0..6).flat_map(|tick| sheet(&[release(tick, 0), release(tick, 1)])).collect();
    let sheet = sheet(&[word(12), low, task_of_sheet_a(), releases, end()]);
    let before_the_lower = report_with_limit(&sheet, 56);
    assert_eq!(TaskLine::of(&before_the_lower, 0), TaskLine::default().dropping(1));
    let complete = report(&sheet);
    assert_eq!(TaskLine::of(&complete, 0), TaskLine::finished(5, 5).dropping(1));
    assert_eq!(TaskLine::of(&complete, 1), TaskLine::finished(5, 56).dropping(1));
    assert_eq!(ticks_done(&complete), 61);
}

/// A waiting job starts, with registers 0, also where a higher task then has the tick.
#[test]
fn a_start_without_a_tick() {
    let body = sheet(&[task(), load(0, 5), add(0, 0)]);
    let releases = sheet(&[release(0, 0), release(1, 0), release(2, 1)]);
    let sheet = sheet(&[body.clone(), body, releases, end()]);
    let registers_of_both = |limit| {
        let report = report_with_limit(&sheet, limit);
        (registers(&report, 0)[0], registers(&report, 1)[0])
    };
    assert_eq!(registers_of_both(2), (10, 0));
    assert_eq!(registers_of_both(3), (0, 5));
    assert_eq!(registers_of_both(5), (5, 10));
    assert_eq!(ticks_done(&report(&sheet)), 6);
}

/// The second SWAP begins in tick 15, after LOAD, LOAD and PAIR from tick 12 on.
#[test]
fn no_operation_before_the_start() {
    let sheet = parse(&sheet_a_with(&[3])).unwrap();
    let spans = |limit| -> Vec<(u32, Option<u32>)> {
        let history = run_with_history(&sheet, limit).1;
        history.operations.iter().map(|one| (one.span.first, one.span.last)).collect()
    };
    assert_eq!(spans(15), [(3, Some(11))]);
    assert_eq!(spans(16), [(3, Some(11)), (15, None)]);
    assert_eq!(spans(23), [(3, Some(11)), (15, Some(22))]);
}

/// Every release of the corpus starts, waits or is dropped as change 1 says.
#[test]
fn the_rule_over_the_corpus() {
    for index in 0..CASES {
        let case = case(SEED, index);
        let Ok(sheet) = parse(&case.sheet) else { continue };
        let limit = case.limit.min(TOP_LIMIT) as u32;
        let (machine, history) = run_with_history(&sheet, limit);
        let arrived = &history.releases;
        for (number, found) in arrived.iter().enumerate() {
            assert_rule(&arrived[..number], found);
        }
        for task in 0..sheet.bodies.len() {
            let own = arrived.iter().filter(|release| release.task == task);
            let waiting = own.clone().filter(|release| release.waits()).map(|one| one.tick);
            assert!(waiting.eq(machine.waiting.of(task).map(|one| u32::from(one.tick))));
            let starts: Vec<u32> = own.filter_map(|release| release.started).collect();
            assert!(starts.windows(2).all(|pair| pair[0] < pair[1]), "case {index}: {starts:?}");
        }
        if machine.tick < limit {
            assert!(machine.unfinished == 0 && machine.waiting.is_empty(), "case {index}");
            assert_eq!(arrived.len(), sheet.releases.len(), "case {index}");
        }
    }
}

/// What became of a release fits those of its task that arrived before it.
fn assert_rule(before: &[Arrived], release: &Arrived) {
    let waited = |one: &&Arrived| {
        let still = one.started.is_none_or(|start| release.tick < start);
        one.task == release.task && !one.dropped && still
    };
    let waiting = before.iter().filter(waited).count();
    match release.started {
        Some(start) if start == release.tick => assert_eq!(waiting, 0, "{release:?}"),
        _ if release.dropped => assert_eq!(waiting, 4, "{release:?}"),
        _ => assert!(waiting < 4, "{release:?}"),
    }
}
