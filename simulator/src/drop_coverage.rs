//! What a corpus covers of dropped releases: whose they are, who runs, and where the limit comes.

use crate::machine::Machine;
use crate::observer::{Fate, Observer, Statement};
use crate::releases::MAX_WAITING;
use crate::sheet::{Release, Sheet};

#[derive(Clone, Copy, Debug, PartialEq, Eq)]
enum DropKind {
    /// In a tick in which the released task runs.
    OfTheTaskThatRuns,
    /// In a tick in which a higher task runs.
    OfATaskThatDoesNotRun,
    TwoTasksDropDifferentNumbers,
    /// Releases to both have arrived.
    OneTaskDropsAnotherDoesNot,
    /// The limit comes where releases were dropped and one waits.
    CutWithOneWaiting,
    /// The limit keeps out a release that would have been dropped.
    CutBeforeTheDrop,
}

const DROP_KINDS: [DropKind; 6] = [
    DropKind::OfTheTaskThatRuns,
    DropKind::OfATaskThatDoesNotRun,
    DropKind::TwoTasksDropDifferentNumbers,
    DropKind::OneTaskDropsAnotherDoesNot,
    DropKind::CutWithOneWaiting,
    DropKind::CutBeforeTheDrop,
];

#[derive(Default)]
pub struct DropCoverage {
    counts: [u64; DROP_KINDS.len()],
}

impl DropCoverage {
    /// Runs the sheet and counts what happens.
    pub fn take(&mut self, sheet: &Sheet, limit: u32) {
        let mut machine = Machine::new(sheet);
        machine.run(limit, &mut Follower { coverage: self, dropped: Vec::new() });
        self.take_counts(&machine);
        self.take_cut(&machine);
    }

    pub fn rows(&self) -> impl Iterator<Item = (String, u64)> + '_ {
        DROP_KINDS.iter().map(|kind| (format!("drop {kind:?}"), self.counts[*kind as usize]))
    }

    fn count(&mut self, kind: DropKind, holds: bool) {
        self.counts[kind as usize] += u64::from(holds);
    }

    fn take_counts(&mut self, machine: &Machine) {
        let arrived = |release: &&Release| u32::from(release.tick) < machine.tick;
        let released = machine.sheet.releases.iter().filter(arrived);
        let drops = released.map(|release| machine.counts[usize::from(release.task)].dropped);
        let mut drops: Vec<u32> = drops.collect();
        drops.sort_unstable();
        drops.dedup();
        let different = drops.iter().filter(|&&dropped| dropped > 0).count();
        self.count(DropKind::TwoTasksDropDifferentNumbers, different > 1);
        self.count(DropKind::OneTaskDropsAnotherDoesNot, different > 0 && drops[0] == 0);
    }

    fn take_cut(&mut self, machine: &Machine) {
        let has_dropped = machine.counts.iter().any(|counts| counts.dropped > 0);
        self.count(DropKind::CutWithOneWaiting, has_dropped && !machine.waiting.is_empty());
        let would_be_dropped = |release: &Release| {
            let task = usize::from(release.task);
            let is_full = machine.waiting.of(task).count() == MAX_WAITING;
            let is_next = u32::from(release.tick) == machine.tick;
            is_next && is_full && machine.unfinished & 1 << task != 0
        };
        let kept_out = machine.sheet.releases.iter().any(would_be_dropped);
        self.count(DropKind::CutBeforeTheDrop, kept_out);
    }
}

struct Follower<'a> {
    coverage: &'a mut DropCoverage,
    /// The tasks whose release was dropped before this tick's statement.
    dropped: Vec<usize>,
}

impl Observer for Follower<'_> {
    fn release(&mut self, _tick: u32, task: usize, fate: Fate) {
        if fate == Fate::Dropped {
            self.dropped.push(task);
        }
    }

    fn statement(&mut self, _tick: u32, running: usize, _statement: Statement) {
        for task in self.dropped.drain(..) {
            self.coverage.count(DropKind::OfTheTaskThatRuns, task == running);
            self.coverage.count(DropKind::OfATaskThatDoesNotRun, task != running);
        }
    }
}
