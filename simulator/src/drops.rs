//! Change 2 of document 02: each task's count of dropped releases, held to the history of the run.

use crate::history::{run_with_history, History};
use crate::machine::Machine;
use crate::sheet::{self, Release};
use crate::TOP_LIMIT;

/// Is each task's count the number of its releases that arrived and neither started a job nor wait
/// at the run's end? The fate that the run told of them is not asked.
pub fn drops_counted(sheet: &[u8], limit: u64) -> Result<(), String> {
    let Ok(sheet) = sheet::parse(sheet) else { return Ok(()) };
    if limit > TOP_LIMIT {
        return Ok(());
    }
    let (machine, history) = run_with_history(&sheet, limit as u32);
    check_arrivals(&machine, &history)?;
    (0..sheet.bodies.len()).try_for_each(|task| check_task(&machine, &history, task))
}

/// Those that arrived are the sheet's releases for the ticks done, in order.
fn check_arrivals(machine: &Machine, history: &History) -> Result<(), String> {
    let has_arrived = |release: &&Release| u32::from(release.tick) < machine.tick;
    let expected = machine.sheet.releases.iter().filter(has_arrived);
    let expected = expected.map(|release| (u32::from(release.tick), usize::from(release.task)));
    if history.releases.iter().map(|release| (release.tick, release.task)).eq(expected) {
        Ok(())
    } else {
        Err(format!("other releases arrived in the {} ticks done", machine.tick))
    }
}

fn check_task(machine: &Machine, history: &History, task: usize) -> Result<(), String> {
    let counts = machine.counts[task];
    let own = || history.releases.iter().filter(|release| release.task == task);
    let started = own().filter(|release| release.started.is_some()).count() as u32;
    let unfinished = u32::from(machine.unfinished >> task & 1);
    if started != counts.finished + counts.spent + unfinished {
        return Err(format!("task {task}: {started} releases started a job, and {counts:?}"));
    }
    // A task has at most one release at a tick.
    let waits = |tick: u32| machine.waiting.of(task).any(|release| u32::from(release.tick) == tick);
    let dropped = own().filter(|release| release.started.is_none() && !waits(release.tick)).count();
    if dropped as u32 != counts.dropped {
        return Err(format!("task {task}: {dropped} releases dropped, and {counts:?}"));
    }
    Ok(())
}
