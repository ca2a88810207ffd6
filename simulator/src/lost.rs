//! Change 3 of document 02: each task's count of lost attempts, held to the history of the run and to
//! the state of the machine.

use crate::history::{run_with_history, Exchange, History, Kind, Operation};
use crate::machine::{Machine, Step};
use crate::observer::{Cause, NoObserver};
use crate::sheet::{self, Command, Sheet};
use crate::TOP_LIMIT;

/// Is each task's count the number of attempts that its transactions lost, and is each lost in the
/// tick in which the machine's state shows a restart?
pub fn lost_counted(sheet: &[u8], limit: u64) -> Result<(), String> {
    let Ok(sheet) = sheet::parse(sheet) else { return Ok(()) };
    if limit > TOP_LIMIT {
        return Ok(());
    }
    let (machine, history) = run_with_history(&sheet, limit as u32);
    history.operations.iter().try_for_each(check_operation)?;
    (0..sheet.bodies.len()).try_for_each(|task| check_count(&machine, &history, task))?;
    let told = lost_in_history(&history);
    let seen = lost_in_state(&sheet, limit as u32)?;
    if told == seen {
        Ok(())
    } else {
        Err(format!("the history has the lost attempts {told:?}, the state shows {seen:?}"))
    }
}

/// Attempts are lost one after another, inside the operation; a rejected one with its exchange.
fn check_operation(operation: &Operation) -> Result<(), String> {
    let lost = operation.lost();
    if !lost.windows(2).all(|pair| pair[0].tick < pair[1].tick) {
        return Err(format!("the ticks of its lost attempts do not rise: {operation:?}"));
    }
    if !lost.iter().all(|attempt| operation.span.holds_inside(attempt.tick)) {
        return Err(format!("an attempt is lost outside: {operation:?}"));
    }
    let rejected = lost.iter().filter(|attempt| attempt.cause == Cause::RejectedCommit);
    let said_no = |exchange: &&Exchange| exchange.committed == Some(false);
    let ends = operation.exchanges.iter().filter(said_no).filter_map(|no| no.span.last);
    let is_transaction = matches!(operation.kind, Kind::Transaction { .. });
    if is_transaction && !rejected.map(|attempt| attempt.tick).eq(ends) {
        return Err(format!("a no of its exchange is no rejected commit: {operation:?}"));
    }
    Ok(())
}

fn check_count(machine: &Machine, history: &History, task: usize) -> Result<(), String> {
    let own = history.operations.iter().filter(|operation| operation.task == task);
    let lost: usize = own.map(|operation| operation.lost().len()).sum();
    let counts = machine.counts[task];
    if lost as u32 == counts.lost {
        Ok(())
    } else {
        Err(format!("task {task}: {lost} attempts lost, and {counts:?}"))
    }
}

/// A lost attempt: tick, task and cause.
type Lost = (u32, usize, Cause);

/// Those that the history holds. No tick loses two.
fn lost_in_history(history: &History) -> Vec<Lost> {
    let of_one = |operation: &Operation| {
        let task = operation.task;
        let lost: Vec<Lost> =
            operation.lost().iter().map(|attempt| (attempt.tick, task, attempt.cause)).collect();
        lost
    };
    let mut lost: Vec<Lost> = history.operations.iter().flat_map(of_one).collect();
    lost.sort_unstable_by_key(|&(tick, _, _)| tick);
    lost
}

/// Runs tick by tick without an observer and looks at the state before and after each. A task's count
/// must rise by one where its transaction restarts, and nowhere else.
fn lost_in_state(sheet: &Sheet, limit: u32) -> Result<Vec<Lost>, String> {
    let begins = begins(sheet);
    let tasks = 0..sheet.bodies.len();
    let look = |machine: &Machine| -> Vec<Standing> {
        tasks.clone().map(|task| Standing::of(machine, &begins, task)).collect()
    };
    let mut machine = Machine::new(sheet);
    let mut before = look(&machine);
    let mut lost = Vec::new();
    for tick in 0..limit {
        machine.run(tick + 1, &mut NoObserver);
        if machine.tick == tick {
            break;
        }
        let after = look(&machine);
        for task in tasks.clone() {
            let cause = before[task].loses(&after[task])?;
            lost.extend(cause.map(|cause| (tick, task, cause)));
            if after[task].lost != before[task].lost + u32::from(cause.is_some()) {
                let (before, after) = (&before[task], &after[task]);
                return Err(format!("task {task}, tick {tick}: {before:?}, then {after:?}"));
            }
        }
        before = after;
    }
    Ok(lost)
}

/// For each command inside a transaction, its BEGIN.
fn begins(sheet: &Sheet) -> Vec<Option<usize>> {
    let mut begin = None;
    let of_command = |(number, command): (usize, &Command)| {
        let found = begin;
        match command {
            Command::Begin => begin = Some(number),
            Command::Commit => begin = None,
            _ => {}
        }
        found
    };
    sheet.commands.iter().enumerate().map(of_command).collect()
}

/// Where a task stands between two ticks.
#[derive(Debug)]
struct Standing {
    /// The BEGIN of the transaction that its job is in.
    begin: Option<usize>,
    has_touched: bool,
    step: Step,
    lost: u32,
}

impl Standing {
    fn of(machine: &Machine, begins: &[Option<usize>], task: usize) -> Standing {
        let job = &machine.jobs[task];
        let unfinished = machine.unfinished & 1 << task != 0;
        Standing {
            begin: if unfinished { begins[job.next] } else { None },
            has_touched: !job.transaction.has_touched_nothing(),
            step: job.step,
            lost: machine.counts[task].lost,
        }
    }

    /// Blocks were touched, and now the same transaction has touched nothing: why it went back shows
    /// in the step that it was at.
    fn loses(&self, after: &Standing) -> Result<Option<Cause>, String> {
        let same_transaction = self.begin.is_some() && self.begin == after.begin;
        if !(same_transaction && self.has_touched && !after.has_touched) {
            return Ok(None);
        }
        match self.step {
            Step::AgainLook | Step::AgainFetch => Ok(Some(Cause::StaleVersion)),
            Step::Commit | Step::Clean | Step::CleanMark => Ok(Some(Cause::RejectedCommit)),
            step => Err(format!("a transaction restarts at {step:?}")),
        }
    }
}
