//! Releases that fall inside attempts of transactions, so that attempts are lost, and right after one
//! is lost.

use crate::bursts::{commands, Releases};
use crate::observer::{Event, Observer, Statement};
use crate::random::Random;
use crate::run_observed;
use crate::sheet::MAX_TASKS;
use crate::write::{end, Bytes};

/// The ticks that are looked through for transactions.
const LOOKED_THROUGH: u64 = 2000;

/// Releases for the words, blocks and bodies in front: the lowest task at tick 0, then higher ones, each
/// where a lower one would be in a transaction.
pub fn releases(random: &mut Random, front: &[u8], tasks: usize) -> Vec<Bytes> {
    let mut releases = Releases::from([(0, 0)]);
    for _ in 0..random.within(1, 8) {
        let found = transactions(front, &releases, tasks);
        let after_loss = random.percent(30) && !found.after_losses.is_empty();
        let places = if after_loss { &found.after_losses } else { &found.inside };
        if places.is_empty() {
            break;
        }
        let (tick, task) = random.pick(places);
        releases.insert((tick as u16, random.within(task + 1, tasks - 1) as u8));
    }
    commands(&releases)
}

/// Runs the sheet with the releases so far.
fn transactions(front: &[u8], releases: &Releases, tasks: usize) -> Transactions {
    let sheet = [front, &commands(releases).concat(), &end()].concat();
    let mut found = Transactions {
        inside: Vec::new(),
        after_losses: Vec::new(),
        in_transaction: [false; MAX_TASKS],
    };
    // A refusal leaves no transaction.
    let _ = run_observed(&sheet, LOOKED_THROUGH, &mut found);
    let has_higher = |place: &(u32, usize)| place.1 + 1 < tasks;
    found.inside.retain(has_higher);
    found.after_losses.retain(has_higher);
    found
}

/// Each place is a tick and the task whose transaction a higher task's release would meet there.
struct Transactions {
    inside: Vec<(u32, usize)>,
    after_losses: Vec<(u32, usize)>,
    in_transaction: [bool; MAX_TASKS],
}

impl Observer for Transactions {
    fn statement(&mut self, tick: u32, task: usize, _statement: Statement) {
        if self.in_transaction[task] {
            self.inside.push((tick, task));
        }
    }

    fn event(&mut self, tick: u32, task: usize, event: Event<'_>) {
        match event {
            Event::TransactionBegins { .. } => self.in_transaction[task] = true,
            Event::TransactionEnds | Event::Spent { .. } => self.in_transaction[task] = false,
            Event::AttemptLost { .. } => self.after_losses.push((tick + 1, task)),
            _ => {}
        }
    }
}
