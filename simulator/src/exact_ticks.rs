//! Change 7 of document 02: the ticks of every exchange held to what it did, by the history of the run
//! and by the state of the machine.

use crate::history::{run_with_history, Exchange, History, Tally};
use crate::machine::{Machine, Step, FAILED};
use crate::observer::NoObserver;
use crate::sheet::{self, Command, Sheet, MAX_TASKS};
use crate::TOP_LIMIT;

/// Does every finished exchange of a SWAP or a COMMIT take exactly the ticks that its five numbers
/// give, and does the machine's state show the same exchanges with the same numbers?
pub fn exact_ticks_hold(sheet: &[u8], limit: u64) -> Result<(), String> {
    let Ok(sheet) = sheet::parse(sheet) else { return Ok(()) };
    if limit > TOP_LIMIT {
        return Ok(());
    }
    let (_, history) = run_with_history(&sheet, limit as u32);
    let exchanges = history.operations.iter().flat_map(|operation| &operation.exchanges);
    exchanges.filter(|one| one.span.last.is_some()).try_for_each(check_exchange)?;
    let told = counted_in_history(&history);
    let seen = counted_in_state(&sheet, limit as u32)?;
    if told == seen {
        Ok(())
    } else {
        Err(format!("the history has the exchanges {told:?}, the state shows {seen:?}"))
    }
}

fn check_exchange(exchange: &Exchange) -> Result<(), String> {
    let words = exchange.pairs.len() as u32;
    let yes = exchange.committed == Some(true);
    check_ticks(words, yes, exchange.span.own_ticks(), &exchange.tally)
}

/// What holds of a finished exchange of so many words with this answer.
pub fn check_ticks(words: u32, yes: bool, own_ticks: u32, tally: &Tally) -> Result<(), String> {
    let Tally { tried, differed, fetched, marked, failed } = *tally;
    let undisturbed_yes = yes && fetched == 0 && marked == 0;
    let rules = [
        ("not the sum", own_ticks == tally.exact_ticks()),
        ("more words than it has", tried + differed <= words),
        ("more than one Fail", differed + failed <= 1),
        ("more fetches than words looked at", fetched <= tried + differed),
        ("more than two marks for a word tried", marked <= 2 * tried),
        ("a yes without all words", !yes || (tried, differed, failed) == (words, 0, 0)),
        ("above the old bound", own_ticks <= 9 * words + 4),
        ("an undisturbed yes of other length", !undisturbed_yes || own_ticks == 6 * words + 3),
    ];
    match rules.iter().find(|(_, holds)| !holds) {
        None => Ok(()),
        Some((fault, _)) => {
            Err(format!("{fault}: {words} words, yes {yes}, {own_ticks} ticks, {tally:?}"))
        }
    }
}

/// An exchange as counted, one that the tick limit cut off too.
#[derive(Clone, Copy, Debug, PartialEq, Eq)]
struct Counted {
    first: u32,
    last: Option<u32>,
    task: usize,
    own_ticks: u32,
    tally: Tally,
}

/// Those that the history holds. No two begin in one tick.
fn counted_in_history(history: &History) -> Vec<Counted> {
    let mut counted = Vec::new();
    for operation in &history.operations {
        counted.extend(operation.exchanges.iter().map(|exchange| Counted {
            first: exchange.span.first,
            last: exchange.span.last,
            task: operation.task,
            own_ticks: exchange.span.own_ticks(),
            tally: exchange.tally,
        }));
    }
    counted.sort_unstable_by_key(|exchange| exchange.first);
    counted
}

/// Runs tick by tick without an observer, and counts from the state before and after each.
fn counted_in_state(sheet: &Sheet, limit: u32) -> Result<Vec<Counted>, String> {
    let mut machine = Machine::new(sheet);
    let mut before = Standing::of_all(&machine);
    let mut under_way = [None; MAX_TASKS];
    let mut counted = Vec::new();
    for tick in 0..limit {
        machine.run(tick + 1, &mut NoObserver);
        if machine.tick == tick {
            break;
        }
        let after = Standing::of_all(&machine);
        // Whose count of ticks has risen has run. In an idle tick none has.
        if let Some(task) = (0..MAX_TASKS).find(|&task| after[task].ticks != before[task].ticks) {
            check_statuses(task, &before, &after)?;
            if before[task].starts {
                under_way[task] = Some(Counted::new(task, tick));
            }
            if let Some(exchange) = &mut under_way[task] {
                exchange.take_tick(&before[task], &after[task])?;
            }
            if after[task].step == Step::Command {
                let ended = under_way[task].take();
                counted.extend(ended.map(|exchange| Counted { last: Some(tick), ..exchange }));
            }
        }
        before = after;
    }
    counted.extend(under_way.into_iter().flatten());
    counted.sort_unstable_by_key(|exchange| exchange.first);
    Ok(counted)
}

/// A tick changes no other task's status, but a mark sets it to 1; and no task marks itself.
fn check_statuses(task: usize, before: &All, after: &All) -> Result<(), String> {
    let to_mark = before[task].to_mark;
    let as_expected = |other: usize| match to_mark == Some(other) {
        true => after[other].status == FAILED,
        false => after[other].status == before[other].status,
    };
    if to_mark != Some(task) && (0..MAX_TASKS).all(|other| other == task || as_expected(other)) {
        Ok(())
    } else {
        Err(format!("task {task} marks {to_mark:?}: {before:?}, then {after:?}"))
    }
}

impl Counted {
    fn new(task: usize, tick: u32) -> Counted {
        Counted { first: tick, last: None, task, own_ticks: 0, tally: Tally::default() }
    }

    /// A tick of its own. A Save or an Install shows by its next step that it has found something else.
    fn take_tick(&mut self, before: &Standing, after: &Standing) -> Result<(), String> {
        self.own_ticks += 1;
        let tally = &mut self.tally;
        match before.step {
            Step::Fetch => tally.fetched += 1,
            Step::Save => tally.differed += u32::from(after.step == Step::FailAfterSave),
            Step::Install => {
                tally.tried += 1;
                tally.failed += u32::from(after.step == Step::FailAfterInstall);
            }
            _ => tally.marked += u32::from(before.to_mark.is_some()),
        }
        // At Commit, i is the number of words tried.
        if before.step == Step::Commit && tally.tried != after.position as u32 {
            return Err(format!("i is {} at Commit: {self:?}", after.position));
        }
        Ok(())
    }
}

/// Where a task stands between two ticks.
#[derive(Clone, Copy, Debug)]
struct Standing {
    step: Step,
    /// Its next tick is the Start of an exchange. No job begins with one.
    starts: bool,
    /// i of its exchange.
    position: usize,
    /// The task that its next tick marks.
    to_mark: Option<usize>,
    status: u8,
    ticks: u32,
}

type All = [Standing; MAX_TASKS];

impl Standing {
    fn of_all(machine: &Machine) -> All {
        std::array::from_fn(|task| Standing::of(machine, task))
    }

    fn of(machine: &Machine, task: usize) -> Standing {
        let job = &machine.jobs[task];
        let unfinished = machine.unfinished & 1 << task != 0;
        let at_swap = || matches!(machine.sheet.commands.get(job.next), Some(Command::Swap { .. }));
        let task_of_init = |position: usize| usize::from(job.exchange.init[position].task);
        Standing {
            step: job.step,
            starts: job.step == Step::Start || job.step == Step::Command && unfinished && at_swap(),
            position: job.exchange.position,
            to_mark: match job.step {
                Step::Mark => Some(task_of_init(job.exchange.position)),
                Step::CleanMark => Some(task_of_init(job.exchange.cleaned)),
                _ => None,
            },
            status: machine.status[task],
            ticks: machine.counts[task].ticks,
        }
    }
}
