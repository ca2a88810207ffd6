//! Releases: those to come, those that wait, and all that comes before a tick's statement.

use std::collections::VecDeque;

use crate::machine::Machine;
use crate::observer::{Fate, Observer};
use crate::sheet::{Release, MAX_TASKS};

/// How many releases may wait for a task behind its unfinished job.
pub const MAX_WAITING: usize = 4;

/// The tick of a release that does not come.
const NEVER: u32 = u32::MAX;

/// The releases that have not arrived yet.
pub struct ToCome<'a> {
    releases: &'a [Release],
    /// The tick of the first of them.
    tick: u32,
}

impl<'a> ToCome<'a> {
    pub fn new(releases: &'a [Release]) -> ToCome<'a> {
        let tick = releases.first().map_or(NEVER, |release| release.tick.into());
        ToCome { releases, tick }
    }

    pub fn is_empty(&self) -> bool {
        self.releases.is_empty()
    }

    /// The next release of this tick. No tick is left out, so every release meets its own tick.
    fn next_at(&mut self, tick: u32) -> Option<Release> {
        if self.tick != tick {
            return None;
        }
        let (&release, rest) = self.releases.split_first()?;
        *self = ToCome::new(rest);
        Some(release)
    }
}

/// The releases that wait behind an unfinished job: a queue for each task, the oldest in front.
#[derive(Default)]
pub struct Waiting {
    queues: [VecDeque<Release>; MAX_TASKS],
    /// One bit for each task whose queue is not empty.
    tasks: u8,
}

impl Waiting {
    pub fn is_empty(&self) -> bool {
        self.tasks == 0
    }

    /// The releases that wait for the task, the oldest first.
    pub fn of(&self, task: usize) -> impl Iterator<Item = &Release> {
        self.queues[task].iter()
    }

    fn has_room(&self, task: usize) -> bool {
        self.queues[task].len() < MAX_WAITING
    }

    fn add(&mut self, release: Release) {
        let task = usize::from(release.task);
        self.queues[task].push_back(release);
        self.tasks |= 1 << task;
    }

    /// The oldest that waits for a task without an unfinished job; at most one job ends in a tick,
    /// so at most one can start.
    fn next_to_start(&mut self, unfinished: u8) -> Option<Release> {
        let ready = self.tasks & !unfinished;
        if ready == 0 {
            return None;
        }
        let task = ready.trailing_zeros() as usize;
        let release = self.queues[task].pop_front();
        if self.queues[task].is_empty() {
            self.tasks &= !(1 << task);
        }
        release
    }
}

impl Machine<'_> {
    /// First the release that waited starts its job, then the releases of this tick arrive.
    #[inline]
    pub fn before_statement<O: Observer>(&mut self, observer: &mut O) {
        if let Some(release) = self.waiting.next_to_start(self.unfinished) {
            self.start(release, Fate::StartsAfterWaiting, observer);
        }
        while let Some(release) = self.to_come.next_at(self.tick) {
            self.arrive(release, observer);
        }
    }

    fn arrive<O: Observer>(&mut self, release: Release, observer: &mut O) {
        let task = usize::from(release.task);
        if self.unfinished & 1 << task == 0 {
            self.start(release, Fate::Starts, observer);
        } else if self.waiting.has_room(task) {
            observer.release(self.tick, task, Fate::Waits);
            self.waiting.add(release);
        } else {
            observer.release(self.tick, task, Fate::Dropped);
            self.counts[task].dropped += 1;
        }
    }

    fn start<O: Observer>(&mut self, release: Release, fate: Fate, observer: &mut O) {
        let task = usize::from(release.task);
        observer.release(self.tick, task, fate);
        self.unfinished |= 1 << task;
        self.jobs[task].start(&self.sheet.bodies[task]);
    }
}
