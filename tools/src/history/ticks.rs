//! What the history of a run does not keep: the ticks of each task, and those of its commits.

use simulator::observer::{Event, Observer, Statement};
use simulator::sheet::MAX_TASKS;

/// For each task, in rising order, the ticks in which it did a statement and those with a Commit, or with a COMMIT
/// with nothing touched.
#[derive(Default)]
pub struct Ticks {
    statements: [Vec<u32>; MAX_TASKS],
    commits: [Vec<u32>; MAX_TASKS],
}

impl Ticks {
    /// How many statements the task did from `first` to `last`.
    pub fn own(&self, task: usize, first: u32, last: u32) -> u32 {
        let up_to = |end: u32| self.statements[task].partition_point(|tick| *tick < end) as u32;
        up_to(last + 1) - up_to(first)
    }

    /// The latest commit of the task from `first` to `last`.
    pub fn commit(&self, task: usize, first: u32, last: u32) -> Option<u32> {
        let end = self.commits[task].partition_point(|tick| *tick <= last);
        self.commits[task][..end].last().copied().filter(|tick| *tick >= first)
    }
}

impl Observer for Ticks {
    fn statement(&mut self, tick: u32, task: usize, _statement: Statement) {
        self.statements[task].push(tick);
    }

    fn event(&mut self, tick: u32, task: usize, event: Event<'_>) {
        if matches!(event, Event::ExchangeCommits { .. } | Event::CommitsNothing) {
            self.commits[task].push(tick);
        }
    }
}
