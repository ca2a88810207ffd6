//! What a corpus of cases covers: refusals, statements, outcomes, releases that wait or are dropped,
//! lost attempts, touched blocks, what exchanges did, each counted.

use std::fmt;

use crate::drop_coverage::DropCoverage;
use crate::generator::Case;
use crate::history::{History, Kind, Operation};
use crate::lost_coverage::LostCoverage;
use crate::machine::Machine;
use crate::observer::{Cause, Event, Fate, Observer, Statement};
use crate::sheet::{self, MAX_TASKS};
use crate::tally_coverage::TallyCoverage;
use crate::touched_coverage::TouchedCoverage;
use crate::waiting_coverage::WaitingCoverage;
use crate::{run, TOP_LIMIT};

/// The statements of plain commands, READ and transactions outside their exchange.
const OUTSIDE: [Statement; 20] = [
    Statement::Load,
    Statement::Add,
    Statement::Pair,
    Statement::ReadLoad,
    Statement::ReadLook,
    Statement::ReadFetch,
    Statement::Begin,
    Statement::FirstLoad,
    Statement::FirstLook,
    Statement::FirstFetch,
    Statement::AgainLoad,
    Statement::AgainLook,
    Statement::AgainFetch,
    Statement::GetFromBlock,
    Statement::GetFromCopy,
    Statement::PutCopies,
    Statement::PutWrites,
    Statement::CommitOfNothing,
    Statement::CommitGathers,
    Statement::CommitSpent,
];

/// The statements of an exchange, counted apart for SWAPs and for transactions.
const EXCHANGE: [Statement; 17] = [
    Statement::ExchangeStart,
    Statement::ExchangeTest,
    Statement::ExchangeLoad,
    Statement::ExchangeLook,
    Statement::ExchangeFetch,
    Statement::ExchangeSave,
    Statement::FailAfterSave,
    Statement::Mark,
    Statement::InstallDone,
    Statement::InstallNotDone,
    Statement::FailAfterInstall,
    Statement::CommitYes,
    Statement::CommitNo,
    Statement::CleanAsNew,
    Statement::CleanBackToInit,
    Statement::CleanNothing,
    Statement::CleanMark,
];

const STATEMENTS: usize = OUTSIDE.len() + EXCHANGE.len();

#[derive(Clone, Copy, Debug, PartialEq, Eq)]
enum Outcome {
    SwapYes,
    SwapNoByDifference,
    SwapNoByInterference,
    TransactionCommitted,
    StaleRestart,
    RejectedCommit,
    SpentJob,
    DroppedRelease,
    IdleTick,
    RunCutShort,
    CommittedSwapCutShort,
    CommittedTransactionCutShort,
}

const OUTCOMES: [Outcome; 12] = [
    Outcome::SwapYes,
    Outcome::SwapNoByDifference,
    Outcome::SwapNoByInterference,
    Outcome::TransactionCommitted,
    Outcome::StaleRestart,
    Outcome::RejectedCommit,
    Outcome::SpentJob,
    Outcome::DroppedRelease,
    Outcome::IdleTick,
    Outcome::RunCutShort,
    Outcome::CommittedSwapCutShort,
    Outcome::CommittedTransactionCutShort,
];

pub struct Coverage {
    pub cases: u64,
    pub ticks: u64,
    /// By number; number 0 counts the accepted cases.
    pub refusals: [u64; 11],
    in_swaps: [u64; STATEMENTS],
    in_transactions: [u64; STATEMENTS],
    outcomes: [u64; OUTCOMES.len()],
    waiting: WaitingCoverage,
    drops: DropCoverage,
    lost: LostCoverage,
    touched: TouchedCoverage,
    tallies: TallyCoverage,
}

impl Coverage {
    pub fn new() -> Coverage {
        Coverage {
            cases: 0,
            ticks: 0,
            refusals: [0; 11],
            in_swaps: [0; STATEMENTS],
            in_transactions: [0; STATEMENTS],
            outcomes: [0; OUTCOMES.len()],
            waiting: WaitingCoverage::default(),
            drops: DropCoverage::default(),
            lost: LostCoverage::default(),
            touched: TouchedCoverage::default(),
            tallies: TallyCoverage::default(),
        }
    }

    pub fn take(&mut self, case: &Case) {
        self.cases += 1;
        let answer = run(&case.sheet, case.limit, &mut case.buffer());
        self.refusals[usize::from(answer.number)] += 1;
        let Ok(sheet) = sheet::parse(&case.sheet) else { return };
        let limit = case.limit.min(TOP_LIMIT) as u32;
        self.waiting.take(&sheet, limit);
        self.drops.take(&sheet, limit);
        self.lost.take(&sheet, limit);
        self.touched.take(&sheet, limit);
        self.tallies.take(&sheet, limit);
        let mut machine = Machine::new(&sheet);
        let mut observers =
            (Counter { coverage: self, in_transaction: [false; MAX_TASKS] }, History::new());
        machine.run(limit, &mut observers);
        let history = observers.1;
        self.ticks += u64::from(machine.tick);
        self.count(Outcome::RunCutShort, u64::from(machine.unfinished != 0));
        for operation in &history.operations {
            self.take_operation(operation);
        }
    }

    fn count(&mut self, outcome: Outcome, times: u64) {
        self.outcomes[outcome as usize] += times;
    }

    fn take_operation(&mut self, operation: &Operation) {
        let ended = operation.span.last.is_some();
        match &operation.kind {
            Kind::Read { .. } => {}
            Kind::Swap { answer: Some(true) } => self.count(Outcome::SwapYes, 1),
            Kind::Swap { answer: Some(false) } if operation.exchanges[0].differs => {
                self.count(Outcome::SwapNoByDifference, 1);
            }
            Kind::Swap { answer: Some(false) } => self.count(Outcome::SwapNoByInterference, 1),
            Kind::Swap { answer: None } => {
                self.count(Outcome::CommittedSwapCutShort, u64::from(operation.committed));
            }
            Kind::Transaction { lost, .. } => {
                let lost_by = |cause| lost.iter().filter(|one| one.cause == cause).count() as u64;
                let committed = operation.committed;
                self.count(Outcome::RejectedCommit, lost_by(Cause::RejectedCommit));
                self.count(Outcome::StaleRestart, lost_by(Cause::StaleVersion));
                self.count(Outcome::SpentJob, u64::from(operation.spent));
                self.count(Outcome::TransactionCommitted, u64::from(committed && ended));
                self.count(Outcome::CommittedTransactionCutShort, u64::from(committed && !ended));
            }
        }
    }

    /// Every row of the table with its count.
    pub fn rows(&self) -> Vec<(String, u64)> {
        let mut rows = Vec::new();
        for (number, &count) in self.refusals.iter().enumerate() {
            let name = if number == 0 { "accepted".into() } else { format!("refusal {number}") };
            rows.push((name, count));
        }
        for statement in OUTSIDE {
            let number = statement as usize;
            let count = self.in_swaps[number] + self.in_transactions[number];
            rows.push((format!("statement {statement:?}"), count));
        }
        for statement in EXCHANGE {
            let number = statement as usize;
            rows.push((format!("SWAP {statement:?}"), self.in_swaps[number]));
            rows.push((format!("transaction {statement:?}"), self.in_transactions[number]));
        }
        for outcome in OUTCOMES {
            rows.push((format!("outcome {outcome:?}"), self.outcomes[outcome as usize]));
        }
        rows.extend(self.waiting.rows());
        rows.extend(self.drops.rows());
        rows.extend(self.lost.rows());
        rows.extend(self.touched.rows());
        rows.extend(self.tallies.rows());
        rows
    }
}

impl Default for Coverage {
    fn default() -> Coverage {
        Coverage::new()
    }
}

impl fmt::Display for Coverage {
    fn fmt(&self, formatter: &mut fmt::Formatter) -> fmt::Result {
        writeln!(formatter, "{} cases, {} ticks", self.cases, self.ticks)?;
        for (name, count) in self.rows() {
            writeln!(formatter, "{count:>10}  {name}")?;
        }
        Ok(())
    }
}

/// Counts the statements of one run.
struct Counter<'a> {
    coverage: &'a mut Coverage,
    in_transaction: [bool; MAX_TASKS],
}

impl Observer for Counter<'_> {
    fn statement(&mut self, _tick: u32, task: usize, statement: Statement) {
        let counts = match self.in_transaction[task] {
            true => &mut self.coverage.in_transactions,
            false => &mut self.coverage.in_swaps,
        };
        counts[statement as usize] += 1;
    }

    fn event(&mut self, _tick: u32, task: usize, event: Event<'_>) {
        match event {
            Event::TransactionBegins { .. } => self.in_transaction[task] = true,
            Event::TransactionEnds | Event::Spent { .. } => self.in_transaction[task] = false,
            _ => {}
        }
    }

    fn idle(&mut self, _tick: u32) {
        self.coverage.count(Outcome::IdleTick, 1);
    }

    fn release(&mut self, _tick: u32, _task: usize, fate: Fate) {
        self.coverage.count(Outcome::DroppedRelease, u64::from(fate == Fate::Dropped));
    }
}
