//! The exchanges in a page's data: by hand, and held to the statements of the recording.

#[path = "common/page.rs"]
mod common;
#[path = "common/packed.rs"]
mod packed;

use common::{data, example, page};
use packed::{bytes, member, numbers};
use simulator::contention::Style;
use simulator::generator::{case, valid_sheet, SEED};
use simulator::history::Tally;
use simulator::machine::{Machine, Step};
use simulator::observer::{NoObserver, Statement};
use simulator::random::Random;
use simulator::sheet::parse;
use simulator::TOP_LIMIT;
use tools::page::{draw, Options};
use tools::recording::Recording;

const TOP: u32 = TOP_LIMIT as u32;

#[derive(Clone, Copy, Debug, PartialEq, Eq)]
struct Exchange {
    task: usize,
    first: u32,
    /// Nothing if the limit cut it off; the data has 65,535 then.
    last: Option<u32>,
    own: u32,
    words: u8,
    answer: Option<bool>,
    tally: Tally,
}

fn exchanges(page: &str) -> Vec<Exchange> {
    let json = member(data(page), "exchanges");
    let ticks = ["first", "last"].map(|name| numbers(json, name, 2));
    let names =
        ["task", "own", "words", "answer", "tried", "differed", "fetched", "marked", "failed"];
    let each = names.map(|name| bytes(json, name));
    let length = ticks[0].len();
    assert!(ticks[1].len() == length && each.iter().all(|list| list.len() == length));
    let exchange = |index: usize| {
        let [task, own, words, answer, ..] = each.each_ref().map(|list| list[index]);
        let [tried, differed, fetched, marked, failed] =
            [4, 5, 6, 7, 8].map(|place| u32::from(each[place][index]));
        Exchange {
            task: task.into(),
            first: ticks[0][index],
            last: Some(ticks[1][index]).filter(|last| *last != 65_535),
            own: own.into(),
            words,
            answer: [None, Some(false), Some(true)][usize::from(answer)],
            tally: Tally { tried, differed, fetched, marked, failed },
        }
    };
    (0..length).map(exchange).collect()
}

/// The page's exchange that a tick of a task is part of, as run.js finds it.
fn place_of(tick: u32, task: usize, exchanges: &[Exchange]) -> Option<usize> {
    let begun = |one: &Exchange| one.task == task && one.first <= tick;
    let latest = exchanges.iter().rposition(begun)?;
    exchanges[latest].last.is_none_or(|last| tick <= last).then_some(latest)
}

/// Every statement of an exchange is part of one of the page's, and no other statement is; ticks, answer and counts are
/// those of its statements. Returns how many exchanges there are.
fn compare(sheet: &[u8], limit: u32) -> usize {
    let page = draw(sheet, &Options { limit, ..Options::default() }).unwrap();
    let sheet = parse(sheet).unwrap();
    let recording = Recording::new(&sheet, limit, 0, limit);
    let read = exchanges(&page);
    assert!(read.windows(2).all(|two| two[0].first < two[1].first));
    let none = |one: &Exchange| Exchange { own: 0, answer: None, tally: Tally::default(), ..*one };
    let mut counted: Vec<Exchange> = read.iter().map(none).collect();
    for (tick, recorded) in (0..).zip(&recording.ticks) {
        let Some(done) = &recorded.done else { continue };
        let place = place_of(tick, done.task, &read);
        let is_part = done.statement as u8 >= Statement::ExchangeStart as u8;
        assert_eq!(place.is_some(), is_part, "tick {tick}");
        let Some(one) = place.map(|place| &mut counted[place]) else { continue };
        assert_eq!(one.first == tick, done.statement == Statement::ExchangeStart, "tick {tick}");
        one.last = one.last.map(|_| tick);
        one.own += 1;
        one.answer = done.commit.or(one.answer);
        count(&mut one.tally, done.statement);
    }
    // A Save that found another value than old, with the limit before its Fail.
    let mut machine = Machine::new(&sheet);
    machine.run(limit, &mut NoObserver);
    for one in counted.iter_mut().filter(|one| one.last.is_none()) {
        one.tally.differed += u32::from(machine.jobs[one.task].step == Step::FailAfterSave);
    }
    assert_eq!(counted, read);
    read.len()
}

fn count(tally: &mut Tally, statement: Statement) {
    match statement {
        Statement::InstallDone => tally.tried += 1,
        Statement::InstallNotDone => {
            tally.tried += 1;
            tally.failed += 1;
        }
        Statement::FailAfterSave => tally.differed += 1,
        Statement::ExchangeFetch => tally.fetched += 1,
        Statement::Mark | Statement::CleanMark => tally.marked += 1,
        _ => {}
    }
}

/// P3 and P5 by their texts, whole and cut off: t1 has committed in tick 21 and not cleaned, t0 has installed.
#[test]
fn exchanges_by_hand() {
    let exchange = |task, first, last, own, words, answer, counts: [u32; 5]| {
        let [tried, differed, fetched, marked, failed] = counts;
        let tally = Tally { tried, differed, fetched, marked, failed };
        Exchange { task, first, last, own, words, answer, tally }
    };
    let no = Some(false);
    let p5 = [
        exchange(0, 3, Some(31), 9, 1, no, [1, 0, 0, 0, 0]),
        exchange(1, 13, Some(28), 16, 2, no, [1, 1, 1, 1, 0]),
    ];
    assert_eq!(exchanges(&page(&example("worked/p5"))), p5);
    let p3 = [
        exchange(0, 3, Some(25), 9, 1, no, [1, 0, 0, 0, 0]),
        exchange(1, 12, Some(22), 11, 1, Some(true), [1, 0, 1, 1, 0]),
    ];
    assert_eq!(exchanges(&page(&example("worked/p3"))), p3);
    let cut_off = [
        exchange(0, 3, None, 6, 1, None, [1, 0, 0, 0, 0]),
        exchange(1, 12, None, 10, 1, Some(true), [1, 0, 1, 1, 0]),
    ];
    let options = Options { limit: 22, ..Options::default() };
    assert_eq!(exchanges(&draw(&example("worked/p3"), &options).unwrap()), cut_off);
}

#[test]
fn the_exchanges_of_examples_and_generated_sheets() {
    let names = tools::examples::names().unwrap();
    // Every hundredth is a long run.
    let generated = (0..300).filter(|number| number % 100 != 99);
    let generated = generated.map(|number| case(SEED, number).sheet);
    let sheets = names.iter().map(|name| example(name)).chain(generated);
    let found: usize =
        sheets.filter(|sheet| parse(sheet).is_ok()).map(|sheet| compare(&sheet, TOP)).sum();
    assert!(found > 500, "{found}");
}

#[test]
fn a_long_run_has_its_exchanges_to_the_last() {
    let found = compare(&valid_sheet(&mut Random::new(SEED, 0), Style::Long), TOP);
    assert!(found > 500, "{found}");
}

/// What has ended before the limit has its last tick, and only that.
#[test]
fn exchanges_at_each_limit() {
    for (name, ticks) in [("worked/p5", 32), ("contended-transaction", 295)] {
        let sheet = example(name);
        let whole = exchanges(&page(&sheet));
        for limit in 0..=ticks {
            compare(&sheet, limit);
            let cut = exchanges(&draw(&sheet, &Options { limit, ..Options::default() }).unwrap());
            let begun = whole.iter().filter(|one| one.first < limit);
            let last = |one: &Exchange| one.last.filter(|last| *last < limit);
            assert!(cut.iter().map(|one| one.last).eq(begun.map(last)), "{name}, limit {limit}");
        }
    }
}
