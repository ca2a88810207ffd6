//! The exact ticks of an exchange: figures worked out by hand from document 01 and change 7 of document
//! 02, and the equation over the corpus, held to the history and to the machine's state.
//!
//! The texts of examples/worked name every tick of the sheets there.

mod common;

use common::*;
use simulator::contention::Style;
use simulator::exact_ticks::{check_ticks, exact_ticks_hold};
use simulator::generator::{case, valid_sheet, CASES, SEED};
use simulator::history::{run_with_history, Tally};
use simulator::random::Random;
use simulator::sheet::parse;
use simulator::write::*;

/// An exchange: task, first and last tick, ticks of its own, then a, d, f, m, b of change 7.
type Row = (usize, u32, Option<u32>, u32, [u32; 5]);

/// The exchanges in the order in which they began.
fn rows(sheet: &[u8], limit: u64) -> Vec<Row> {
    let sheet = parse(sheet).unwrap();
    let history = run_with_history(&sheet, limit as u32).1;
    let mut rows = Vec::new();
    for operation in &history.operations {
        for exchange in &operation.exchanges {
            let Tally { tried, differed, fetched, marked, failed } = exchange.tally;
            let (span, numbers) = (exchange.span, [tried, differed, fetched, marked, failed]);
            rows.push((operation.task, span.first, span.last, span.own_ticks(), numbers));
        }
    }
    rows.sort_by_key(|&(_, first, ..)| first);
    rows
}

fn assert_rows(sheet: &[u8], expected: &[(usize, u32, u32, u32, [u32; 5])]) {
    let ended = |&(task, first, last, own, numbers)| (task, first, Some(last), own, numbers);
    let expected: Vec<Row> = expected.iter().map(ended).collect();
    assert_eq!(rows(sheet, LIMIT), expected);
    assert_eq!(exact_ticks_hold(sheet, LIMIT), Ok(()));
}

#[test]
fn worked_swaps() {
    assert_rows(&worked("sheet-a"), &[(0, 3, 11, 9, [1, 0, 0, 0, 0])]);
    // The lower task's answer is no, and its word was installed.
    let p3 = [(0, 3, 25, 9, [1, 0, 0, 0, 0]), (1, 12, 22, 11, [1, 0, 1, 1, 0])];
    assert_rows(&worked("p3"), &p3);
    let p4 = [(0, 3, 22, 9, [1, 0, 0, 0, 0]), (1, 14, 21, 8, [0, 1, 0, 0, 0])];
    assert_rows(&worked("p4"), &p4);
    let p5 = [(0, 3, 31, 9, [1, 0, 0, 0, 0]), (1, 13, 28, 16, [1, 1, 1, 1, 0])];
    assert_rows(&worked("p5"), &p5);
}

#[test]
fn worked_transactions() {
    assert_rows(&worked("p9"), &[(0, 20, 28, 9, [1, 0, 0, 0, 0])]);
    assert_rows(&worked("p10"), &[]);
    // The exchange of t0 from tick 37 on finds another version: a rejected commit.
    let stale_then_rejected = [
        (1, 19, 27, 9, [1, 0, 0, 0, 0]),
        (0, 37, 69, 8, [0, 1, 0, 0, 0]),
        (1, 54, 62, 9, [1, 0, 0, 0, 0]),
        (0, 76, 84, 9, [1, 0, 0, 0, 0]),
    ];
    assert_rows(&worked("stale-then-rejected"), &stale_then_rejected);
    // The one from tick 7 on is marked by t1's from tick 31 on: rejected after its install.
    let rejected_then_stale = [
        (0, 7, 44, 9, [1, 0, 0, 0, 0]),
        (1, 31, 41, 11, [1, 0, 1, 1, 0]),
        (0, 51, 59, 9, [1, 0, 0, 0, 0]),
        (1, 79, 87, 9, [1, 0, 0, 0, 0]),
        (0, 112, 120, 9, [1, 0, 0, 0, 0]),
    ];
    assert_rows(&worked("rejected-then-stale"), &rejected_then_stale);
}

/// A task that exchanges 12 in word 0 for this value.
fn exchanges_12_for(value: u32) -> Bytes {
    sheet(&[task(), load(1, 12), load(2, value), pair(0, 1, 2), swap(0)])
}

/// Ticks: t0 3 to 8, up to Install. t1 12 Start, 13 Test, 14 Load, 15 Look. t2 19 Start, 20 Test, 21 Load,
/// 22 Look, 23 Fetch, 24 Save, 25 Mark t0, 26 Install, 27 Test, 28 Commit: yes, 29 Clean.
/// t1 30 Fetch t0's save place: 12, 31 Save, 32 Mark t0, 33 Install finds t2's word, 34 Fail, 35 Test,
/// 36 Commit: no, 37 Clean, not as installed, 38 Mark t0. t0 39 Test, 40 Commit: no, 41 Clean.
fn three_rivals() -> Bytes {
    let tasks = [5, 7, 9].map(exchanges_12_for).concat();
    sheet(&[word(12), tasks, release(0, 0), release(9, 1), release(16, 2), end()])
}

/// t1 marks twice for its one word and comes to the old bound, 9 + 4.
#[test]
fn two_marks_for_one_word_and_a_failed_install() {
    let expected = [
        (0, 3, 41, 9, [1, 0, 0, 0, 0]),
        (1, 12, 38, 13, [1, 0, 1, 2, 1]),
        (2, 19, 29, 11, [1, 0, 1, 1, 0]),
    ];
    assert_rows(&three_rivals(), &expected);
}

/// The exchange that began as this one, in the run with this limit.
fn cut_off(sheet: &[u8], limit: u64, number: usize) -> Row {
    assert_eq!(exact_ticks_hold(sheet, limit), Ok(()));
    rows(sheet, limit)[number]
}

/// Each number rises in the tick of the statement that finds it: Fetch 30, Mark 32, Install 33, tried and
/// failed, Mark 38. Fail 34 counts nothing.
#[test]
fn an_exchange_cut_off_keeps_what_it_counted() {
    let second = |limit| cut_off(&three_rivals(), limit, 1);
    assert_eq!(second(30), (1, 12, None, 4, [0, 0, 0, 0, 0]));
    assert_eq!(second(31), (1, 12, None, 5, [0, 0, 1, 0, 0]));
    assert_eq!(second(32), (1, 12, None, 6, [0, 0, 1, 0, 0]));
    assert_eq!(second(33), (1, 12, None, 7, [0, 0, 1, 1, 0]));
    assert_eq!(second(34), (1, 12, None, 8, [1, 0, 1, 1, 1]));
    assert_eq!(second(35), (1, 12, None, 9, [1, 0, 1, 1, 1]));
    assert_eq!(second(38), (1, 12, None, 12, [1, 0, 1, 1, 1]));
    assert_eq!(second(39), (1, 12, Some(38), 13, [1, 0, 1, 2, 1]));
}

/// t1 only reads word 0. Ticks: t0 3 to 8, up to Install. t1 9 LOAD, 10 PAIR, 11 Start, 12 Test, 13 Load,
/// 14 Look, 15 Fetch, 16 Save, 17 Install, 18 Test, 19 Commit: yes, 20 Clean: t0's word again.
/// t0 21 Test, 22 Commit: yes, 23 Clean.
#[test]
fn a_fetch_without_a_mark() {
    let reader = sheet(&[task(), load(1, 12), pair(0, 1, 1), swap(0)]);
    let tasks = sheet(&[exchanges_12_for(5), reader]);
    let expected = [(0, 3, 23, 9, [1, 0, 0, 0, 0]), (1, 11, 20, 10, [1, 0, 1, 0, 0])];
    assert_rows(&sheet(&[word(12), tasks, release(0, 0), release(9, 1), end()]), &expected);
}

/// The same t1, and t2 after its Look. Ticks: t2 15 and 16 LOAD, 17 PAIR, 18 Start, 19 Test, 20 Load, 21 Look,
/// 22 Fetch, 23 Save, 24 Mark t0, 25 Install, 26 Test, 27 Commit: yes, 28 Clean. t1 29 Fetch, 30 Save, 31 Install
/// finds t2's word, 32 Fail, 33 Test, 34 Commit: no, 35 Clean, 36 Mark t0. t0 37 Test, 38 Commit: no, 39 Clean.
#[test]
fn a_mark_in_clean_only() {
    let reader = sheet(&[task(), load(1, 12), pair(0, 1, 1), swap(0)]);
    let tasks = sheet(&[exchanges_12_for(5), reader, exchanges_12_for(9)]);
    let releases = sheet(&[release(0, 0), release(9, 1), release(15, 2)]);
    let expected = [
        (0, 3, 39, 9, [1, 0, 0, 0, 0]),
        (1, 11, 36, 12, [1, 0, 1, 1, 1]),
        (2, 18, 28, 11, [1, 0, 1, 1, 0]),
    ];
    assert_rows(&sheet(&[word(12), tasks, releases, end()]), &expected);
}

/// t1 expects 99. Ticks: t0 3 to 8, up to Install. t1 9 LOAD, 10 PAIR, 11 Start, 12 Test, 13 Load, 14 Look,
/// 15 Fetch: 12, 16 Save, 17 Fail, 18 Test, 19 Commit: no, i is 0. t0 20 Test, 21 Commit: yes, 22 Clean.
#[test]
fn a_fetched_value_that_differs() {
    let tasks = sheet(&[exchanges_12_for(5), task(), load(1, 99), pair(0, 1, 2), swap(0)]);
    let sheet = sheet(&[word(12), tasks, release(0, 0), release(9, 1), end()]);
    let expected = [(0, 3, 22, 9, [1, 0, 0, 0, 0]), (1, 11, 19, 9, [0, 1, 1, 0, 0])];
    assert_rows(&sheet, &expected);
    // Cut off before Save, between Save and Fail, after Fail.
    assert_eq!(cut_off(&sheet, 16, 1), (1, 11, None, 5, [0, 0, 1, 0, 0]));
    assert_eq!(cut_off(&sheet, 17, 1), (1, 11, None, 6, [0, 1, 1, 0, 0]));
    assert_eq!(cut_off(&sheet, 18, 1), (1, 11, None, 7, [0, 1, 1, 0, 0]));
}

/// t0 exchanges 12 for 5 in words 1 and 0, and t1 in word 0 comes at this tick.
fn two_words_disturbed_at(tick: u16) -> Bytes {
    let body = [load(1, 12), load(2, 5), pair(1, 1, 2), pair(0, 1, 2), swap(0)].concat();
    let tasks = sheet(&[task(), body, exchanges_12_for(7)]);
    sheet(&[word(12), word(12), tasks, release(0, 0), release(tick, 1), end()])
}

/// Ticks: t0 0 and 1 LOAD, 2 and 3 PAIR, 4 Start, 5 Test, 6 Load, 7 Look, 8 Save, 9 Install, 10 Test, 11 Load,
/// 12 Look, 13 Save. t1 14 to 16, 17 Start to 25 Clean as in sheet A. t0 26 Install finds t1's word, 27 Fail,
/// 28 Test, 29 Commit: no, 30 Clean: word 1 back, 31 Clean, nothing to do.
#[test]
fn the_second_install_fails() {
    let expected = [(0, 4, 31, 16, [2, 0, 0, 0, 1]), (1, 17, 25, 9, [1, 0, 0, 0, 0])];
    assert_rows(&two_words_disturbed_at(14), &expected);
    // Cut off before Install, between Install and Fail, after Fail.
    assert_eq!(cut_off(&two_words_disturbed_at(14), 26, 0), (0, 4, None, 10, [1, 0, 0, 0, 0]));
    assert_eq!(cut_off(&two_words_disturbed_at(14), 27, 0), (0, 4, None, 11, [2, 0, 0, 0, 1]));
    assert_eq!(cut_off(&two_words_disturbed_at(14), 28, 0), (0, 4, None, 12, [2, 0, 0, 0, 1]));
}

/// t1 comes before t0's second Load, which then finds 7. Ticks: t0 4 to 10, as above. t1 11 to 13, 14 to 22.
/// t0 23 Load, 24 Look, 25 Save, 26 Fail, 27 Test, 28 Commit: no, 29 Clean: word 1 back.
#[test]
fn the_second_word_differs() {
    let expected = [(0, 4, 29, 14, [1, 1, 0, 0, 0]), (1, 14, 22, 9, [1, 0, 0, 0, 0])];
    assert_rows(&two_words_disturbed_at(11), &expected);
    // Cut off before Save, between Save and Fail, after Fail.
    assert_eq!(cut_off(&two_words_disturbed_at(11), 25, 0), (0, 4, None, 9, [1, 0, 0, 0, 0]));
    assert_eq!(cut_off(&two_words_disturbed_at(11), 26, 0), (0, 4, None, 10, [1, 1, 0, 0, 0]));
    assert_eq!(cut_off(&two_words_disturbed_at(11), 27, 0), (0, 4, None, 11, [1, 1, 0, 0, 0]));
}

/// The rule that an exchange of so many words with these numbers breaks, if any.
fn broken(words: u32, yes: bool, own_ticks: u32, numbers: [u32; 5]) -> Option<String> {
    let [tried, differed, fetched, marked, failed] = numbers;
    let tally = Tally { tried, differed, fetched, marked, failed };
    let fault = check_ticks(words, yes, own_ticks, &tally).err()?;
    Some(fault.split(':').next()?.to_string())
}

/// P5's exchange of two words passes. Then each rule is broken by itself, but for the last two, which
/// follow from the others.
#[test]
fn wrong_numbers_are_refused() {
    assert_eq!(broken(2, false, 16, [1, 1, 1, 1, 0]), None);
    let rule = |words, yes, own_ticks, numbers| broken(words, yes, own_ticks, numbers).unwrap();
    assert_eq!(rule(2, false, 17, [1, 1, 1, 1, 0]), "not the sum");
    assert_eq!(rule(2, false, 16, [1, 0, 1, 1, 1]), "not the sum");
    assert_eq!(rule(2, false, 21, [3, 0, 0, 0, 0]), "more words than it has");
    assert_eq!(rule(4, false, 20, [1, 2, 1, 0, 0]), "more than one Fail");
    assert_eq!(rule(3, false, 21, [2, 1, 0, 0, 1]), "more than one Fail");
    assert_eq!(rule(2, false, 10, [0, 1, 2, 0, 0]), "more fetches than words looked at");
    assert_eq!(rule(2, false, 17, [1, 1, 0, 3, 0]), "more than two marks for a word tried");
    assert_eq!(rule(2, true, 10, [1, 0, 1, 0, 0]), "a yes without all words");
    assert_eq!(rule(2, true, 17, [2, 0, 1, 0, 1]), "a yes without all words");
}

fn assert_exact(sheet: &[u8], limit: u64, name: std::fmt::Arguments<'_>) {
    if let Err(fault) = exact_ticks_hold(sheet, limit) {
        panic!("{name}: {fault}");
    }
}

#[test]
fn the_ticks_are_exact_over_the_corpus() {
    for index in 0..CASES {
        let case = case(SEED, index);
        assert_exact(&case.sheet, case.limit, format_args!("case {index}"));
    }
}

/// Small contended sheets, cut short after every tick.
#[test]
fn the_ticks_are_exact_after_every_tick() {
    for index in 0..80 {
        let style = Style::SHORT[index as usize % Style::SHORT.len()];
        let sheet = valid_sheet(&mut Random::new(SEED, index), style);
        for limit in 0..400 {
            assert_exact(&sheet, limit, format_args!("sheet {index}, limit {limit}"));
        }
    }
}
