//! Hand-worked sheets for the readings of document 01 that concern the run.

mod common;

use common::*;
use simulator::write::*;

/// The job of sheet A ends in tick 11: a release before the next tick starts a job at once.
#[test]
fn a_job_ends_in_its_last_tick() {
    // The second job finds 5: Start, Test, Load, Look, Save, Fail, Test, Commit.
    let taken = report(&sheet_a_with(&[12]));
    assert_eq!(ticks_done(&taken), 23);
    assert_eq!(TaskLine::of(&taken, 0), TaskLine::finished(2, 23));
    assert_eq!(registers(&taken, 0)[0], 0);
}

/// Releases at a tick that is not done do not arrive; registers go to 0 when a job starts.
#[test]
fn the_limit_comes_before_the_releases() {
    let stopped = report_with_limit(&sheet_a_with(&[12]), 12);
    assert_eq!(ticks_done(&stopped), 12);
    assert_eq!(registers(&stopped, 0), [1, 12, 5, 0, 0, 0, 0, 0]);

    let started = report_with_limit(&sheet_a_with(&[12]), 13);
    assert_eq!(registers(&started, 0), [0, 12, 0, 0, 0, 0, 0, 0]);

    // Four wait, so the release at tick 5 is dropped if it arrives.
    let sheet = sheet_a_with(&[1, 2, 3, 4, 5]);
    let dropped = |limit| TaskLine::of(&report_with_limit(&sheet, limit), 0).dropped;
    assert_eq!((dropped(5), dropped(6)), (0, 1));
}

/// A release past the limit is still to come: the run idles up to the limit.
#[test]
fn idle_ticks() {
    let report = report_with_limit(&sheet_a_with(&[100]), 50);
    assert_eq!(ticks_done(&report), 50);
    assert_eq!(TaskLine::of(&report, 0), TaskLine::finished(1, 12));
}

/// Sheet A's task at tick 0 with two more tasks at these ticks.
fn three(first: Bytes, first_tick: u16, second: Bytes, second_tick: u16) -> String {
    let releases = sheet(&[release(0, 0), release(first_tick, 1), release(second_tick, 2)]);
    report(&sheet(&[word(12), task_of_sheet_a(), first, second, releases, end()]))
}

/// Look goes by the word as loaded, with status and save place as they are in that tick.
#[test]
fn a_reader_overtaken_after_its_load() {
    let report = three(sheet(&[task(), read(0, 0)]), 9, rival(), 10);
    assert_eq!(registers(&report, 1)[0], 12);
    assert_eq!(TaskLine::of(&report, 1).ticks, 3);
    assert_eq!(word_value(&report, 0), 7);
}

/// Fail after Install is a tick of its own, and Clean visits that word too.
#[test]
fn install_not_done() {
    let releases = sheet(&[release(0, 0), release(8, 1)]);
    let report = report(&sheet(&[word(12), task_of_sheet_a(), rival(), releases, end()]));
    assert_eq!(TaskLine::of(&report, 0).ticks, 13);
    assert_eq!(registers(&report, 0)[0], 0);
    assert_eq!(word_value(&report, 0), 7);
    assert_eq!(ticks_done(&report), 25);
}

/// As before, but the word was overlapped: Clean Marks in one more tick.
#[test]
fn install_of_an_overlapped_word_not_done() {
    let report = three(rival(), 9, rival(), 19);
    assert_eq!(TaskLine::of(&report, 1).ticks, 16);
    assert_eq!(TaskLine::of(&report, 2).ticks, 14);
    assert_eq!(ticks_done(&report), 42);
    let answers: Vec<u32> = (0..3).map(|task| registers(&report, task)[0]).collect();
    assert_eq!(answers, [0, 0, 1]);
}

/// Install compares all four fields: the value alone would be the one that task 1 loaded.
#[test]
fn install_finds_the_same_value_from_another_task() {
    let same_new_value = task_of_sheet_a();
    let report = three(rival(), 9, same_new_value, 17);
    let answers: Vec<u32> = (0..3).map(|task| registers(&report, task)[0]).collect();
    assert_eq!(answers, [0, 0, 1]);
    assert_eq!(word_value(&report, 0), 5);
}

/// A read-only pair does not Mark before Install. Overtaken, it has to Mark in Clean.
#[test]
fn a_read_only_pair_overtaken() {
    let reader = sheet(&[task(), load(1, 12), pair(0, 1, 1), swap(0)]);
    let answers =
        |report: &str| -> Vec<u32> { (0..3).map(|task| registers(report, task)[0]).collect() };

    // Before its Commit: the upper task Marks it.
    let marked = three(reader.clone(), 9, rival(), 18);
    assert_eq!(answers(&marked), [0, 0, 1]);
    assert_eq!(TaskLine::of(&marked, 1).ticks, 13);
    assert_eq!(TaskLine::of(&marked, 2).ticks, 14);

    // After its Commit: its own value counts, so the upper task neither Fetches nor Marks.
    let committed = three(reader.clone(), 9, rival(), 20);
    assert_eq!(answers(&committed), [0, 1, 1]);
    assert_eq!(TaskLine::of(&committed, 1).ticks, 13);
    assert_eq!(TaskLine::of(&committed, 2).ticks, 12);

    // Left alone, it gives the word back to the lowest task, which commits.
    let alone = three(reader, 9, sheet(&[task(), read(0, 0)]), 40);
    assert_eq!(answers(&alone), [1, 1, 5]);
    assert_eq!(word_value(&alone, 0), 5);
}

/// One block at this version with values 40 to 47, and one task with this body at tick 0.
fn alone(version: u32, body: &[Bytes]) -> String {
    let values = [40, 41, 42, 43, 44, 45, 46, 47];
    report(&sheet(&[block(version, values), task(), sheet(body), release(0, 0), end()]))
}

#[test]
fn ticks_of_gets_and_puts() {
    // BEGIN 1, COMMIT with nothing touched 1.
    assert_eq!(ticks_done(&alone(0, &[begin(), commit()])), 2);
    // First GET 2 + 1 + 2, GET of a touched block 1 + 2, COMMIT 1 + 9.
    assert_eq!(ticks_done(&alone(0, &[begin(), get(0, 0, 1), get(1, 0, 2), commit()])), 19);
    // First PUT 2 + 8 + 2 + 1, later PUT 1.
    assert_eq!(ticks_done(&alone(0, &[begin(), put(0, 0, 0), put(0, 1, 0), commit()])), 25);
    // First PUT after GET: no first reading, so 8 + 2 + 1.
    assert_eq!(ticks_done(&alone(0, &[begin(), get(0, 0, 1), put(0, 0, 0), commit()])), 27);
}

/// GET of a block that was PUT fetches from the copy, then reads the bank word again.
#[test]
fn get_after_put() {
    let report =
        alone(0, &[load(3, 9), begin(), put(0, 0, 3), get(4, 0, 0), get(5, 0, 1), commit()]);
    assert_eq!(registers(&report, 0), [0, 0, 0, 9, 9, 41, 0, 0]);
    assert_eq!(ticks_done(&report), 31);
}

/// Only PUT blocks are spent at the top version; registers stay, and the job ends there.
#[test]
fn spent_jobs() {
    let read_only = alone(16_777_215, &[begin(), get(0, 0, 0), commit()]);
    assert_eq!(TaskLine::of(&read_only, 0), TaskLine::finished(1, 16));

    let spent = alone(16_777_215, &[begin(), get(0, 0, 0), put(0, 1, 0), commit(), load(0, 1)]);
    assert_eq!(TaskLine::of(&spent, 0), TaskLine::spent(1, 18));
    assert_eq!(registers(&spent, 0)[0], 40);

    let last_version = alone(16_777_214, &[begin(), put(0, 0, 0), commit()]);
    assert_eq!(numbers(&last_version, "B 0")[..3], [16_777_215, 0, 41]);
}

/// A commit that finds another version is rejected: a lost attempt of the exchange's last tick.
#[test]
fn rejected_commit() {
    let releases = sheet(&[release(0, 0), release(20, 1)]);
    let sheet = sheet(&[block(3, [40; 8]), task_u(), task_u(), releases, end()]);
    let complete = report(&sheet);
    // Lower task: 20 ticks up to the exchange, 8 until it is rejected, 28 without BEGIN.
    assert_eq!(TaskLine::of(&complete, 0), TaskLine::finished(1, 56).losing(1));
    assert_eq!(TaskLine::of(&complete, 1), TaskLine::finished(1, 29));
    assert_eq!(numbers(&complete, "B 0")[..2], [5, 42]);

    assert_eq!(TaskLine::of(&report_with_limit(&sheet, 20 + 29 + 7), 0).lost, 0);
    let rejected = report_with_limit(&sheet, 20 + 29 + 8);
    assert_eq!(TaskLine::of(&rejected, 0).lost, 1);
    assert_eq!(registers(&rejected, 0), [0; 8]);
}

/// Once Commit has answered yes the new value is current, though Clean has not come.
#[test]
fn runs_cut_short_around_commit() {
    let sheet = sheet_a_with(&[]);
    assert_eq!(word_value(&report_with_limit(&sheet, 10), 0), 12);
    assert_eq!(word_value(&report_with_limit(&sheet, 11), 0), 5);
    assert_eq!(registers(&report_with_limit(&sheet, 11), 0)[0], 0);
}
