//! Lost attempts by task: sheets worked out by hand from change 3 of document 02, and the counts over
//! the corpus, held to the history and to the machine's state.
//!
//! examples/worked has the sheets of most figures, and their texts name every tick.

mod common;

use common::*;
use simulator::contention::Style;
use simulator::generator::{case, valid_sheet, CASES, SEED};
use simulator::history::run_with_history;
use simulator::lost::lost_counted;
use simulator::observer::Cause::{self, RejectedCommit, StaleVersion};
use simulator::random::Random;
use simulator::sheet::parse;
use simulator::write::*;

/// For each transaction of task 0, the ticks of its lost attempts with their causes.
fn lost_by_lowest_task(sheet: &[u8]) -> Vec<Vec<(u32, Cause)>> {
    let sheet = parse(sheet).unwrap();
    let history = run_with_history(&sheet, LIMIT as u32).1;
    let own = history.operations.iter().filter(|operation| operation.task == 0);
    own.map(|operation| operation.lost().iter().map(|one| (one.tick, one.cause)).collect())
        .collect()
}

#[test]
fn ticks_and_causes_of_the_worked_figures() {
    let found = |name| lost_by_lowest_task(&worked(name));
    assert_eq!(found("p9"), [vec![]]);
    assert_eq!(found("p10"), [vec![]]);
    assert_eq!(found("two-tasks-u"), [vec![(46, StaleVersion)]]);
    assert_eq!(found("stale-then-rejected"), [vec![(30, StaleVersion), (69, RejectedCommit)]]);
    let two_transactions = [vec![(44, RejectedCommit)], vec![(97, StaleVersion)]];
    assert_eq!(found("rejected-then-stale"), two_transactions);
    assert_eq!(found("spent-after-stale"), [vec![(37, StaleVersion)]]);
}

/// The lower task's T line and registers after so many ticks.
fn lower(sheet: &[u8], limit: u64) -> (TaskLine, Vec<u32>) {
    let report = report_with_limit(sheet, limit);
    (TaskLine::of(&report, 0), registers(&report, 0))
}

/// Tick 30 finds the stale version. With limit 30 it is not done: nothing is lost yet.
#[test]
fn the_limit_just_before_and_after_a_stale_restart() {
    let sheet = worked("stale-then-rejected");
    assert_eq!(lower(&sheet, 30), (TaskLine::finished(0, 5), vec![0; 8]));
    assert_eq!(lower(&sheet, 31), (TaskLine::finished(0, 6).losing(1), vec![0; 8]));
}

/// Tick 69 is the exchange's last. Until then r0 has what the attempt's GET gave, then BEGIN's 0.
#[test]
fn the_limit_just_before_and_after_a_rejected_commit() {
    let sheet = worked("stale-then-rejected");
    let got_7 = vec![7, 0, 0, 0, 0, 0, 0, 0];
    assert_eq!(lower(&sheet, 69), (TaskLine::finished(0, 19).losing(1), got_7));
    assert_eq!(lower(&sheet, 70), (TaskLine::finished(0, 20).losing(2), vec![0; 8]));
}

/// Commit says no in tick 43; Clean, in tick 44, is the exchange's last.
#[test]
fn a_rejected_commit_counts_in_the_last_tick_of_its_exchange() {
    let sheet = worked("rejected-then-stale");
    let got_40 = vec![40, 0, 0, 0, 0, 0, 0, 0];
    assert_eq!(lower(&sheet, 44), (TaskLine::finished(0, 15), got_40));
    assert_eq!(lower(&sheet, 45), (TaskLine::finished(0, 16).losing(1), vec![0; 8]));
}

/// Tick 51 is spent: the job ends, and the count stays.
#[test]
fn a_spent_commit_is_no_lost_attempt() {
    let sheet = worked("spent-after-stale");
    assert_eq!(lower(&sheet, 51).0, TaskLine::finished(0, 26).losing(1));
    assert_eq!(lower(&sheet, 52).0, TaskLine::spent(1, 27).losing(1));
}

/// P3: the lower task's SWAP answers no, and starts nothing over.
#[test]
fn a_no_of_swap_is_no_lost_attempt() {
    let releases = sheet(&[release(0, 0), release(9, 1)]);
    let report = report(&sheet(&[word(12), task_of_sheet_a(), rival(), releases, end()]));
    assert_eq!((registers(&report, 0)[0], registers(&report, 1)[0]), (0, 1));
    assert_eq!((TaskLine::of(&report, 0).lost, TaskLine::of(&report, 1).lost), (0, 0));
}

/// Two jobs of task U below two of another, each as in two-tasks-u: the count goes on over the jobs.
#[test]
fn the_count_is_the_task_s_and_not_the_job_s() {
    let releases = sheet(&[release(0, 0), release(6, 1), release(100, 0), release(106, 1)]);
    let report = report(&sheet(&[block(3, [40; 8]), task_u(), task_u(), releases, end()]));
    assert_eq!(TaskLine::of(&report, 0), TaskLine::finished(2, 92).losing(2));
    assert_eq!(TaskLine::of(&report, 1), TaskLine::finished(2, 58));
    assert_eq!(ticks_done(&report), 175);
}

fn assert_counted(sheet: &[u8], limit: u64, name: std::fmt::Arguments<'_>) {
    if let Err(fault) = lost_counted(sheet, limit) {
        panic!("{name}: {fault}");
    }
}

#[test]
fn the_counts_are_the_history_s_and_the_state_s_over_the_corpus() {
    for index in 0..CASES {
        let case = case(SEED, index);
        assert_counted(&case.sheet, case.limit, format_args!("case {index}"));
    }
}

#[test]
fn the_counts_are_the_history_s_and_the_state_s_in_every_style() {
    for index in 0..4000 {
        let style = Style::SHORT[index as usize % Style::SHORT.len()];
        let sheet = valid_sheet(&mut Random::new(SEED ^ 3, index), style);
        assert_counted(&sheet, LIMIT, format_args!("{style:?} {index}"));
    }
}

/// Small sheets whose attempts are lost, cut short after every tick.
#[test]
fn the_counts_are_the_history_s_and_the_state_s_after_every_tick() {
    for index in 0..40 {
        let sheet = valid_sheet(&mut Random::new(SEED, index), Style::Attempts);
        for limit in 0..250 {
            assert_counted(&sheet, limit, format_args!("sheet {index}, limit {limit}"));
        }
    }
}

/// The fourth number of a T line is that of the attempts that its task's transactions lost.
#[test]
fn the_report_has_the_counts() {
    let mut in_all = 0;
    for index in 0..200 {
        let bytes = valid_sheet(&mut Random::new(SEED, index), Style::Attempts);
        let sheet = parse(&bytes).unwrap();
        let history = run_with_history(&sheet, LIMIT as u32).1;
        let report = report(&bytes);
        for task in 0..sheet.bodies.len() {
            let own = history.operations.iter().filter(|operation| operation.task == task);
            let lost: usize = own.map(|operation| operation.lost().len()).sum();
            assert_eq!(TaskLine::of(&report, task as u8).lost, lost as u32, "sheet {index}");
            in_all += lost;
        }
    }
    assert!(in_all > 100, "{in_all} lost attempts");
}
