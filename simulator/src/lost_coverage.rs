//! What a corpus covers of lost attempts: how many runs have each kind, alone and together.

use crate::history::{History, LostAttempt, Operation};
use crate::machine::Machine;
use crate::observer::{Cause, Observer, Statement};
use crate::sheet::{Sheet, MAX_TASKS};

#[derive(Clone, Copy, Debug, PartialEq, Eq)]
enum LossKind {
    StaleRestart,
    RejectedCommit,
    /// In one job, in one transaction or in several.
    BothInOneJob,
    /// In one transaction, the one kind right after the other.
    StaleThenRejected,
    RejectedThenStale,
    MoreThanOneInATransaction,
    TwoTransactionsOfAJobLose,
    TwoTasksLoseDifferentNumbers,
    /// The limit comes right after the tick that loses the attempt.
    InTheLastTick,
    /// Higher tasks run up to the limit.
    CutBeforeTheNextOwnTick,
    /// In the same transaction.
    SpentAfterStaleRestart,
    SpentAfterRejectedCommit,
    /// In a later transaction of the same job.
    SpentAfterLossOfAnEarlierTransaction,
}

const LOSS_KINDS: [LossKind; 13] = [
    LossKind::StaleRestart,
    LossKind::RejectedCommit,
    LossKind::BothInOneJob,
    LossKind::StaleThenRejected,
    LossKind::RejectedThenStale,
    LossKind::MoreThanOneInATransaction,
    LossKind::TwoTransactionsOfAJobLose,
    LossKind::TwoTasksLoseDifferentNumbers,
    LossKind::InTheLastTick,
    LossKind::CutBeforeTheNextOwnTick,
    LossKind::SpentAfterStaleRestart,
    LossKind::SpentAfterRejectedCommit,
    LossKind::SpentAfterLossOfAnEarlierTransaction,
];

#[derive(Default)]
pub struct LostCoverage {
    /// The runs that have the kind, once or more often.
    runs: [u64; LOSS_KINDS.len()],
}

impl LostCoverage {
    /// Runs the sheet and looks for each kind.
    pub fn take(&mut self, sheet: &Sheet, limit: u32) {
        let mut machine = Machine::new(sheet);
        let mut observers = (History::new(), LastTicks([0; MAX_TASKS]));
        machine.run(limit, &mut observers);
        let (history, last_ticks) = observers;
        let mut kinds = Kinds([false; LOSS_KINDS.len()]);
        for operation in &history.operations {
            kinds.take_transaction(operation);
            for attempt in operation.lost() {
                let in_last_tick = attempt.tick + 1 == machine.tick;
                let is_last_own_tick = attempt.tick == last_ticks.0[operation.task];
                kinds.note(LossKind::InTheLastTick, in_last_tick);
                let cut = is_last_own_tick && !in_last_tick;
                kinds.note(LossKind::CutBeforeTheNextOwnTick, cut);
            }
        }
        for job in jobs(&history) {
            kinds.take_job(&job);
        }
        let mut numbers: Vec<u32> = machine.counts.iter().map(|counts| counts.lost).collect();
        numbers.retain(|&lost| lost > 0);
        numbers.sort_unstable();
        numbers.dedup();
        kinds.note(LossKind::TwoTasksLoseDifferentNumbers, numbers.len() > 1);
        for (runs, found) in self.runs.iter_mut().zip(kinds.0) {
            *runs += u64::from(found);
        }
    }

    pub fn rows(&self) -> impl Iterator<Item = (String, u64)> + '_ {
        LOSS_KINDS.iter().map(|kind| (format!("run with loss {kind:?}"), self.runs[*kind as usize]))
    }
}

/// The operations of each job, in order.
fn jobs(history: &History) -> Vec<Vec<&Operation>> {
    let starts = history.releases.iter().filter_map(|one| Some((one.task, one.started?)));
    let mut jobs: Vec<(usize, u32, Vec<&Operation>)> =
        starts.map(|(task, start)| (task, start, Vec::new())).collect();
    jobs.sort_by_key(|&(_, start, _)| start);
    for operation in &history.operations {
        let holds = |(task, start, _): &&mut (usize, u32, Vec<&Operation>)| {
            *task == operation.task && *start <= operation.span.first
        };
        if let Some((_, _, operations)) = jobs.iter_mut().rev().find(holds) {
            operations.push(operation);
        }
    }
    jobs.into_iter().map(|(_, _, operations)| operations).collect()
}

/// The kinds that one run has.
struct Kinds([bool; LOSS_KINDS.len()]);

impl Kinds {
    fn note(&mut self, kind: LossKind, holds: bool) {
        self.0[kind as usize] |= holds;
    }

    fn take_transaction(&mut self, operation: &Operation) {
        let lost = operation.lost();
        self.note(LossKind::StaleRestart, has(lost, Cause::StaleVersion));
        self.note(LossKind::RejectedCommit, has(lost, Cause::RejectedCommit));
        self.note(LossKind::MoreThanOneInATransaction, lost.len() > 1);
        for pair in lost.windows(2) {
            let causes = (pair[0].cause, pair[1].cause);
            let stale_first = causes == (Cause::StaleVersion, Cause::RejectedCommit);
            let rejected_first = causes == (Cause::RejectedCommit, Cause::StaleVersion);
            self.note(LossKind::StaleThenRejected, stale_first);
            self.note(LossKind::RejectedThenStale, rejected_first);
        }
        let spent = operation.spent;
        self.note(LossKind::SpentAfterStaleRestart, spent && has(lost, Cause::StaleVersion));
        self.note(LossKind::SpentAfterRejectedCommit, spent && has(lost, Cause::RejectedCommit));
    }

    fn take_job(&mut self, operations: &[&Operation]) {
        let has_lost = |cause| operations.iter().any(|operation| has(operation.lost(), cause));
        let both = has_lost(Cause::StaleVersion) && has_lost(Cause::RejectedCommit);
        self.note(LossKind::BothInOneJob, both);
        let losers = operations.iter().filter(|operation| !operation.lost().is_empty()).count();
        self.note(LossKind::TwoTransactionsOfAJobLose, losers > 1);
        // A spent transaction is the last operation of its job.
        if let Some((last, earlier)) = operations.split_last() {
            let lost = earlier.iter().any(|operation| !operation.lost().is_empty());
            self.note(LossKind::SpentAfterLossOfAnEarlierTransaction, last.spent && lost);
        }
    }
}

fn has(lost: &[LostAttempt], cause: Cause) -> bool {
    lost.iter().any(|attempt| attempt.cause == cause)
}

/// For each task, the last tick in which it ran.
struct LastTicks([u32; MAX_TASKS]);

impl Observer for LastTicks {
    fn statement(&mut self, tick: u32, task: usize, _statement: Statement) {
        self.0[task] = tick;
    }
}
