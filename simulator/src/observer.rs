//! What a run can tell while it goes on; with history off every method is empty and costs nothing.

use crate::machine::Pair;
use crate::sheet::REGISTERS;

/// Each tick that is not idle does exactly one of these.
#[derive(Clone, Copy, Debug, PartialEq, Eq)]
pub enum Statement {
    Load,
    Add,
    Pair,
    ReadLoad,
    ReadLook,
    ReadFetch,
    Begin,
    /// The reading of a bank word at the first GET or PUT of its block.
    FirstLoad,
    FirstLook,
    FirstFetch,
    /// The reading of a bank word that checks the version.
    AgainLoad,
    AgainLook,
    AgainFetch,
    GetFromBlock,
    GetFromCopy,
    PutCopies,
    PutWrites,
    CommitOfNothing,
    CommitGathers,
    CommitSpent,
    ExchangeStart,
    ExchangeTest,
    ExchangeLoad,
    ExchangeLook,
    ExchangeFetch,
    ExchangeSave,
    FailAfterSave,
    Mark,
    InstallDone,
    InstallNotDone,
    FailAfterInstall,
    CommitYes,
    CommitNo,
    CleanAsNew,
    CleanBackToInit,
    CleanNothing,
    CleanMark,
}

/// What the history of a run keeps beside the statements themselves.
#[derive(Clone, Copy, Debug)]
pub enum Event<'a> {
    ReadBegins {
        word: u8,
    },
    ReadEnds {
        answer: u32,
    },
    ExchangeBegins {
        pairs: &'a [Pair],
    },
    ExchangeLoads,
    /// Save has found another value than old: Fail comes next.
    ExchangeDiffers,
    /// The task whose status an exchange's Mark sets to 1, before Install or in Clean.
    Marks {
        task: usize,
    },
    ExchangeCommits {
        answer: bool,
    },
    ExchangeEnds {
        answer: bool,
    },
    TransactionBegins {
        registers: &'a [u32; REGISTERS],
        first: usize,
    },
    /// The first GET or PUT of a block has read its bank word.
    Touches {
        block: u8,
        version: u32,
    },
    Gets {
        answer: u32,
    },
    /// The transaction goes back to the command after BEGIN.
    AttemptLost {
        cause: Cause,
    },
    CommitsNothing,
    TransactionEnds,
    /// One bit for each PUT block at the last version.
    Spent {
        causes: u16,
    },
}

/// Why an attempt of a transaction is lost.
#[derive(Clone, Copy, Debug, PartialEq, Eq)]
pub enum Cause {
    /// The second reading of a GET or of a first PUT finds another version than the remembered one.
    StaleVersion,
    /// The exchange of its COMMIT answers no.
    RejectedCommit,
}

/// What becomes of a release when it arrives, or later when its waiting is over.
#[derive(Clone, Copy, Debug, PartialEq, Eq)]
pub enum Fate {
    /// It arrives and starts a job.
    Starts,
    /// It arrives and waits behind the task's unfinished job.
    Waits,
    /// It arrives and is dropped, since four wait already.
    Dropped,
    /// It waited, and now it starts a job: the oldest one of its task.
    StartsAfterWaiting,
}

/// In each tick the releases come first, then the statement, then the events that belong to it, and
/// last the end of the job.
pub trait Observer {
    #[inline(always)]
    fn release(&mut self, _tick: u32, _task: usize, _fate: Fate) {}
    #[inline(always)]
    fn statement(&mut self, _tick: u32, _task: usize, _statement: Statement) {}
    #[inline(always)]
    fn event(&mut self, _tick: u32, _task: usize, _event: Event<'_>) {}
    /// The job has finished or is spent.
    #[inline(always)]
    fn job_ends(&mut self, _tick: u32, _task: usize) {}
    #[inline(always)]
    fn idle(&mut self, _tick: u32) {}
}

/// History off.
pub struct NoObserver;

impl Observer for NoObserver {}

/// Two observers of one run.
impl<A: Observer, B: Observer> Observer for (A, B) {
    fn release(&mut self, tick: u32, task: usize, fate: Fate) {
        self.0.release(tick, task, fate);
        self.1.release(tick, task, fate);
    }

    fn statement(&mut self, tick: u32, task: usize, statement: Statement) {
        self.0.statement(tick, task, statement);
        self.1.statement(tick, task, statement);
    }

    fn event(&mut self, tick: u32, task: usize, event: Event<'_>) {
        self.0.event(tick, task, event);
        self.1.event(tick, task, event);
    }

    fn job_ends(&mut self, tick: u32, task: usize) {
        self.0.job_ends(tick, task);
        self.1.job_ends(tick, task);
    }

    fn idle(&mut self, tick: u32) {
        self.0.idle(tick);
        self.1.idle(tick);
    }
}
