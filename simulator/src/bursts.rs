//! Releases that come before a job has ended: bursts to one task, and releases just where one ends.

use std::collections::BTreeSet;

use crate::observer::Observer;
use crate::random::Random;
use crate::run_observed;
use crate::write::{end, release, Bytes};

/// The ticks that are looked through for the end of a job.
const LOOKED_THROUGH: u64 = 2000;

/// Tick and task: rising, and never twice.
pub type Releases = BTreeSet<(u16, u8)>;

/// Releases for the words, blocks and bodies in front, at most 71.
pub fn releases(random: &mut Random, front: &[u8], tasks: usize) -> Vec<Bytes> {
    let mut releases = Releases::from([(0, 0)]);
    burst(random, tasks, &mut releases);
    for _ in 0..random.within(1, 6) {
        if random.percent(40) {
            burst(random, tasks, &mut releases);
        } else {
            where_a_job_ends(random, front, &mut releases);
        }
    }
    commands(&releases)
}

pub fn commands(releases: &Releases) -> Vec<Bytes> {
    releases.iter().map(|&(tick, task)| release(tick, task)).collect()
}

/// Up to ten releases to one task, so that with pauses of one tick more than four often wait.
fn burst(random: &mut Random, tasks: usize, releases: &mut Releases) {
    let task = random.below(tasks) as u8;
    let first = if random.percent(50) { 0 } else { random.below(60) };
    let pause = random.pick(&[1, 1, 1, 2, 7]);
    for number in 0..random.within(2, 10) {
        releases.insert(((first + pause * number) as u16, task));
    }
}

/// A release in the tick in which a job of its task ends, in the next tick, or in both.
fn where_a_job_ends(random: &mut Random, front: &[u8], releases: &mut Releases) {
    let sheet = [front, &commands(releases).concat(), &end()].concat();
    let mut ends = JobEnds(Vec::new());
    // A refusal leaves no end of a job.
    let _ = run_observed(&sheet, LOOKED_THROUGH, &mut ends);
    if ends.0.is_empty() {
        return;
    }
    let (tick, task) = random.pick(&ends.0);
    let (first, last) = random.pick(&[(tick, tick), (tick + 1, tick + 1), (tick, tick + 1)]);
    releases.extend([(first, task), (last, task)]);
}

/// The tick and the task of every job that ends.
struct JobEnds(Vec<(u16, u8)>);

impl Observer for JobEnds {
    fn job_ends(&mut self, tick: u32, task: usize) {
        self.0.push((tick as u16, task as u8));
    }
}
