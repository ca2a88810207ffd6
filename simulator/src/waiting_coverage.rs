//! What a corpus covers of releases that wait: each case that may go wrong is counted apart.

use crate::machine::Machine;
use crate::observer::{Event, Fate, Observer};
use crate::releases::MAX_WAITING;
use crate::sheet::{Sheet, MAX_TASKS};

#[derive(Clone, Copy, Debug, PartialEq, Eq)]
enum Wait {
    ReleaseWaits,
    /// It is the fourth that waits.
    FourthWaits,
    /// Six releases to one task in six ticks, one after another.
    BurstOfSix,
    /// In the very tick in which the task's job ends.
    ReleaseAsJobEnds,
    DropAsJobEnds,
    /// In the tick after it, with none waiting: it starts at once.
    ReleaseAfterJobEnds,
    /// In the tick in which one that waited starts: it waits.
    ReleaseAsWaitingStarts,
    /// The same with four waiting before the start.
    ReleaseTakesFreedPlace,
    WaitingStarts,
    /// In the tick in which it starts a higher task is released, which runs first.
    WaitingStartsBelowRelease,
    WaitingStartsAfterSpent,
    SpentWithReleaseWaiting,
    /// Nothing else is left: no job is unfinished and no release is to come.
    OnlyWaitingLeft,
    /// The limit comes between the end of a job and the start of the one that waits behind it.
    CutBeforeWaitingStarts,
    /// The limit comes one tick later.
    CutAfterWaitingStarts,
    CutWithReleaseWaiting,
}

const WAITS: [Wait; 16] = [
    Wait::ReleaseWaits,
    Wait::FourthWaits,
    Wait::BurstOfSix,
    Wait::ReleaseAsJobEnds,
    Wait::DropAsJobEnds,
    Wait::ReleaseAfterJobEnds,
    Wait::ReleaseAsWaitingStarts,
    Wait::ReleaseTakesFreedPlace,
    Wait::WaitingStarts,
    Wait::WaitingStartsBelowRelease,
    Wait::WaitingStartsAfterSpent,
    Wait::SpentWithReleaseWaiting,
    Wait::OnlyWaitingLeft,
    Wait::CutBeforeWaitingStarts,
    Wait::CutAfterWaitingStarts,
    Wait::CutWithReleaseWaiting,
];

#[derive(Default)]
pub struct WaitingCoverage {
    counts: [u64; WAITS.len()],
}

impl WaitingCoverage {
    /// Runs the sheet and counts what happens.
    pub fn take(&mut self, sheet: &Sheet, limit: u32) {
        let tasks = [Followed::default(); MAX_TASKS];
        let mut follower = Follower { coverage: self, tasks, to_come: sheet.releases.len() };
        let mut machine = Machine::new(sheet);
        machine.run(limit, &mut follower);
        follower.finish(machine.tick, limit);
    }

    pub fn rows(&self) -> impl Iterator<Item = (String, u64)> + '_ {
        WAITS.iter().map(|wait| (format!("waiting {wait:?}"), self.counts[*wait as usize]))
    }

    fn count(&mut self, wait: Wait, holds: bool) {
        self.counts[wait as usize] += u64::from(holds);
    }
}

/// What is known of a task; ticks are those of the latest time.
#[derive(Clone, Copy, Default)]
struct Followed {
    unfinished: bool,
    waiting: usize,
    arrived: Option<(u32, Fate)>,
    /// The releases in this tick and the ticks just before it.
    burst: u32,
    waiting_started: Option<u32>,
    ended: Option<u32>,
    spent: Option<u32>,
}

struct Follower<'a> {
    coverage: &'a mut WaitingCoverage,
    tasks: [Followed; MAX_TASKS],
    to_come: usize,
}

impl Follower<'_> {
    /// The run is over: was it cut where one waits or has just started?
    fn finish(self, ticks: u32, limit: u32) {
        for task in self.tasks {
            let waits = task.waiting > 0;
            self.coverage.count(Wait::CutBeforeWaitingStarts, waits && !task.unfinished);
            self.coverage.count(Wait::CutWithReleaseWaiting, waits && task.unfinished);
            let just_started = task.waiting_started.is_some_and(|start| start + 1 == ticks);
            self.coverage.count(Wait::CutAfterWaitingStarts, just_started && ticks == limit);
        }
    }

    fn arrive(&mut self, tick: u32, task: usize, fate: Fate) {
        self.to_come -= 1;
        let starts = |lower: &Followed| lower.waiting_started == Some(tick);
        let above_a_start = self.tasks[..task].iter().any(starts);
        let coverage = &mut *self.coverage;
        let task = &mut self.tasks[task];
        let in_burst = task.arrived.is_some_and(|(before, _)| before + 1 == tick);
        task.burst = if in_burst { task.burst + 1 } else { 1 };
        task.arrived = Some((tick, fate));
        coverage.count(Wait::BurstOfSix, task.burst == 6);
        let after_end = task.ended.is_some_and(|ended| ended + 1 == tick);
        let as_waiting_starts = task.waiting_started == Some(tick);
        match fate {
            Fate::Starts => {
                task.unfinished = true;
                coverage.count(Wait::ReleaseAfterJobEnds, after_end);
                coverage.count(Wait::WaitingStartsBelowRelease, above_a_start);
            }
            Fate::Waits => {
                task.waiting += 1;
                let fourth = task.waiting == MAX_WAITING;
                coverage.count(Wait::ReleaseWaits, true);
                coverage.count(Wait::FourthWaits, fourth);
                coverage.count(Wait::ReleaseAsWaitingStarts, as_waiting_starts);
                coverage.count(Wait::ReleaseTakesFreedPlace, as_waiting_starts && fourth);
            }
            _ => {}
        }
    }

    fn start_waiting(&mut self, tick: u32, task: usize) {
        let none_unfinished = self.tasks.iter().all(|task| !task.unfinished);
        let coverage = &mut *self.coverage;
        let task = &mut self.tasks[task];
        let after_spent = task.spent.is_some() && task.spent == task.ended;
        coverage.count(Wait::WaitingStarts, true);
        coverage.count(Wait::WaitingStartsAfterSpent, after_spent);
        coverage.count(Wait::OnlyWaitingLeft, none_unfinished && self.to_come == 0);
        task.waiting -= 1;
        task.unfinished = true;
        task.waiting_started = Some(tick);
    }
}

impl Observer for Follower<'_> {
    fn release(&mut self, tick: u32, task: usize, fate: Fate) {
        match fate {
            Fate::StartsAfterWaiting => self.start_waiting(tick, task),
            _ => self.arrive(tick, task, fate),
        }
    }

    fn event(&mut self, tick: u32, task: usize, event: Event<'_>) {
        if let Event::Spent { .. } = event {
            let waits = self.tasks[task].waiting > 0;
            self.coverage.count(Wait::SpentWithReleaseWaiting, waits);
            self.tasks[task].spent = Some(tick);
        }
    }

    fn job_ends(&mut self, tick: u32, task: usize) {
        let task = &mut self.tasks[task];
        task.unfinished = false;
        task.ended = Some(tick);
        let as_it_ends = |fate| task.arrived == Some((tick, fate));
        self.coverage.count(Wait::ReleaseAsJobEnds, as_it_ends(Fate::Waits));
        self.coverage.count(Wait::DropAsJobEnds, as_it_ends(Fate::Dropped));
    }
}
