//! The proved library against the second simulator: both entries, byte for byte, the buffer past the report included.
//!
//! `COMPARE_SEED` and `COMPARE_CASES` run another or a larger corpus.

#[path = "../../simulator/tests/common/mod.rs"]
mod common;
mod shared;

use common::{report, report_of_sheet_a, sheet_a_with, task_lines, TaskLine};
use shared::{setting, CASES};
use simulator::contention::Style;
use simulator::generator::{case, valid_sheet, SEED};
use simulator::history::run_with_history;
use simulator::random::Random;
use simulator::write::*;

fn compare(seed: u64, index: u64) -> u8 {
    let case = case(seed, index);
    let expected = simulator::check(&case.sheet);
    let found = hizgrael::check(&case.sheet);
    assert_eq!(
        (found.number, found.place),
        (expected.number, expected.place as u64),
        "check of case {index}, seed {seed}"
    );

    let mut expected_buffer = case.buffer();
    let mut found_buffer = case.buffer();
    let expected = simulator::run(&case.sheet, case.limit, &mut expected_buffer);
    let found = hizgrael::run(&case.sheet, case.limit, &mut found_buffer);
    assert_eq!(
        (found.number, found.place),
        (expected.number, expected.place as u64),
        "run of case {index}, seed {seed}"
    );
    assert!(found_buffer == expected_buffer, "buffer of case {index}, seed {seed}");
    found.number
}

#[test]
fn library_and_simulator_agree() {
    let seed = setting("COMPARE_SEED", SEED);
    let cases = setting("COMPARE_CASES", CASES);
    let mut by_number = [0u64; 11];
    for index in 0..cases {
        by_number[usize::from(compare(seed, index))] += 1;
    }
    println!("{cases} cases of seed {seed}, by number: {by_number:?}");
    if cases >= CASES {
        assert!(by_number.iter().all(|&count| count > 0), "every answer occurs: {by_number:?}");
    }
}

/// Every small limit of one contended sheet, of one with releases of two tasks that wait and are dropped, of one in which two tasks lose
/// attempts, and of one with a COMMIT of eight blocks that is rejected, one that is done, and a spent one.
#[test]
fn every_limit_agrees() {
    let contended = (0..)
        .map(|index| case(SEED, index).sheet)
        .find(|sheet| simulator::check(sheet).number == 0 && sheet.len() > 150)
        .expect("the corpus has valid sheets");
    let bursts = (0..)
        .map(|index| valid_sheet(&mut Random::new(SEED, index), Style::Bursts))
        .find(|sheet| two_tasks_have(sheet, |task| task.dropped))
        .expect("the generator has sheets with drops");
    let attempts = (0..)
        .map(|index| valid_sheet(&mut Random::new(SEED, index), Style::Attempts))
        .find(|sheet| two_tasks_have(sheet, |task| task.lost))
        .expect("the generator has sheets with lost attempts");
    let wide = (0..)
        .map(|index| valid_sheet(&mut Random::new(SEED, index), Style::Wide))
        .find(|sheet| commits_of_eight_blocks(sheet))
        .expect("the generator has sheets with transactions of eight blocks");
    let sheets = [contended, bursts, attempts, wide];
    for (sheet, limit) in sheets.iter().flat_map(|sheet| (0..600).map(move |limit| (sheet, limit)))
    {
        let mut expected = [0x2E; 4096];
        let mut found = [0x2E; 4096];
        let answer = simulator::run(sheet, limit, &mut expected);
        let other = hizgrael::run(sheet, limit, &mut found);
        assert_eq!(
            (other.number, other.place),
            (answer.number, answer.place as u64),
            "limit {limit}"
        );
        assert!(found == expected, "limit {limit}");
    }
}

/// Within the limits that are compared: one rejected, one done, and somewhere a spent COMMIT.
fn commits_of_eight_blocks(sheet: &[u8]) -> bool {
    let sheet = simulator::sheet::parse(sheet).expect("a good sheet");
    let history = run_with_history(&sheet, 599).1;
    let exchanges = history.operations.iter().flat_map(|operation| &operation.exchanges);
    let answers: Vec<bool> = exchanges
        .filter(|exchange| exchange.pairs.len() == 8)
        .filter_map(|exchange| exchange.committed)
        .collect();
    let spent = history.operations.iter().any(|operation| operation.spent);
    answers.contains(&true) && answers.contains(&false) && spent
}

/// Above 0, and not the same number.
fn two_tasks_have(sheet: &[u8], number: impl Fn(TaskLine) -> u32) -> bool {
    let numbers = task_lines(&report(sheet)).into_iter().map(number);
    let mut numbers: Vec<u32> = numbers.filter(|&number| number > 0).collect();
    numbers.sort_unstable();
    numbers.dedup();
    numbers.len() > 1
}

/// Sheet A released at ticks 0 and 3, limits just before and after the waiting job's start, worked out by hand: the first job ends in
/// tick 11, and the second does its first LOAD in tick 12.
#[test]
fn a_limit_around_the_start_of_a_waiting_job() {
    let sheet = sheet_a_with(&[3]);
    assert_report(&sheet, 12, TaskLine::finished(1, 12), [1, 12, 5]);
    assert_report(&sheet, 13, TaskLine::finished(1, 13), [0, 12, 0]);
    assert_report(&sheet, 22, TaskLine::finished(1, 22), [0, 12, 5]);
    assert_report(&sheet, 23, TaskLine::finished(2, 23), [0, 12, 5]);
}

/// Sheet A released at ticks 0 to 5: the release at 5 finds four waiting. With limit 5 it has not arrived.
#[test]
fn a_limit_around_a_drop() {
    let sheet = sheet_a_with(&[1, 2, 3, 4, 5]);
    assert_report(&sheet, 12, TaskLine::finished(1, 12).dropping(1), [1, 12, 5]);
    assert_report(&sheet, 56, TaskLine::finished(5, 56).dropping(1), [0, 12, 5]);
    let dropped = |limit| {
        let mut found = [0; 128];
        let length = hizgrael::run(&sheet, limit, &mut found).accepted().expect("a good sheet");
        TaskLine::of(&String::from_utf8_lossy(&found[..length]), 0).dropped
    };
    assert_eq!((dropped(5), dropped(6)), (0, 1));
}

/// The sheet of examples/worked/stale-then-rejected: tick 30 finds a stale version, and in tick 69, the last of its exchange, the
/// commit is rejected. A tick that is not done loses nothing.
#[test]
fn a_limit_around_a_lost_attempt() {
    let lower = sheet(&[task(), begin(), get(0, 0, 0), commit()]);
    let upper = sheet(&[task(), load(0, 7), begin(), put(0, 0, 0), commit()]);
    let releases = sheet(&[release(0, 0), release(3, 1), release(38, 1)]);
    let sheet = sheet(&[block(3, [40, 0, 0, 0, 0, 0, 0, 0]), lower, upper, releases, end()]);
    let lower_after = |limit| {
        let mut found = [0; 256];
        let length = hizgrael::run(&sheet, limit, &mut found).accepted().expect("a good sheet");
        TaskLine::of(&String::from_utf8_lossy(&found[..length]), 0)
    };
    assert_eq!(lower_after(30), TaskLine::finished(0, 5));
    assert_eq!(lower_after(31), TaskLine::finished(0, 6).losing(1));
    assert_eq!(lower_after(69), TaskLine::finished(0, 19).losing(1));
    assert_eq!(lower_after(70), TaskLine::finished(0, 20).losing(2));
    assert_eq!(lower_after(85), TaskLine::finished(1, 35).losing(2));
}

/// The library's report of sheet A's task, and not a byte past it.
fn assert_report(sheet: &[u8], limit: u64, task: TaskLine, registers: [u32; 3]) {
    let mut found = [0x2E; 128];
    let length = hizgrael::run(sheet, limit, &mut found).accepted().expect("a good sheet");
    let expected = report_of_sheet_a(task, registers);
    assert_eq!(String::from_utf8_lossy(&found[..length]), expected, "limit {limit}");
    assert!(found[length..].iter().all(|&byte| byte == 0x2E), "limit {limit}");
}

/// Noise of every small length, and ten megabytes of it.
#[test]
fn noise_agrees() {
    let mut state = SEED;
    let mut byte = move || {
        state =
            state.wrapping_mul(6_364_136_223_846_793_005).wrapping_add(1_442_695_040_888_963_407);
        (state >> 56) as u8
    };
    for length in (0..2_000).chain([10_000_000]) {
        let noise: Vec<u8> = (0..length).map(|_| byte()).collect();
        let expected = simulator::check(&noise);
        let found = hizgrael::check(&noise);
        assert_eq!(
            (found.number, found.place),
            (expected.number, expected.place as u64),
            "length {length}"
        );
    }
}
