//! A row for each operation of a run, in the order in which they began.

use simulator::history::{Exchange, History, Kind, LostAttempt, Operation};
use simulator::machine::{Machine, Pair};
use simulator::observer::Cause;
use simulator::report::render;
use simulator::sheet::{Command, Sheet, REGISTERS};

use super::ticks::Ticks;
use crate::names::Names;

/// The rows of a run, and what the run was.
pub struct Table<'a> {
    pub names: &'a Names,
    pub limit: u32,
    /// How many ticks were done.
    pub ticks: u32,
    pub report: String,
    pub rows: Vec<Row>,
}

pub struct Row {
    pub task: usize,
    pub arguments: Arguments,
    pub first_tick: u32,
    /// Nothing if the limit cut the operation off.
    pub last_tick: Option<u32>,
    /// The ticks of its own, as far as it came.
    pub own_ticks: u32,
    /// What a READ or a SWAP answered, or the GETs of a transaction's last attempt.
    pub answers: Vec<u32>,
    pub outcome: &'static str,
    pub lost: Vec<LostAttempt>,
    /// The Commit of its exchange, yes or no; for a transaction that of its last attempt.
    pub commit_tick: Option<u32>,
    /// Where it stands, and the tick that puts it there.
    pub order: Option<Place>,
    /// A SWAP has one, a transaction one for each COMMIT it came to.
    pub exchanges: Vec<Exchange>,
}

/// What the plain machine is fed.
pub enum Arguments {
    Read {
        word: u8,
    },
    Swap {
        pairs: Vec<Pair>,
    },
    /// The registers at BEGIN, and the commands between it and COMMIT.
    Transaction {
        registers: [u32; REGISTERS],
        commands: Vec<Command>,
    },
}

/// A place in the order of whole operations, the first is 1.
#[derive(Clone, Copy, Debug, PartialEq, Eq)]
pub struct Place {
    pub number: usize,
    pub tick: u32,
}

impl Arguments {
    pub fn operation(&self) -> &'static str {
        match self {
            Arguments::Read { .. } => "READ",
            Arguments::Swap { .. } => "SWAP",
            Arguments::Transaction { .. } => "TRANSACTION",
        }
    }
}

impl Table<'_> {
    pub fn new<'a>(sheet: &Sheet, limit: u32, names: &'a Names) -> Table<'a> {
        let mut machine = Machine::new(sheet);
        let mut observers = (History::new(), Ticks::default());
        machine.run(limit, &mut observers);
        let (history, ticks) = observers;
        let run = Run { sheet, ticks, end: machine.tick.saturating_sub(1) };
        let mut rows: Vec<Row> =
            history.operations.iter().map(|operation| run.row(operation)).collect();
        set_order(&mut rows, &history.operations);
        Table { names, limit, ticks: machine.tick, report: render(&machine), rows }
    }
}

/// As the plain machine is fed: those that stand in the order, by the tick that gives each its place.
fn set_order(rows: &mut [Row], operations: &[Operation]) {
    let stands = |index: &usize| operations[*index].stands_in_order();
    let mut order: Vec<usize> = (0..operations.len()).filter(stands).collect();
    order.sort_by_key(|&index| operations[index].place);
    for (before, index) in order.into_iter().enumerate() {
        let place = |tick| Place { number: before + 1, tick };
        rows[index].order = operations[index].place.map(place);
    }
}

/// A run that is over.
struct Run<'a> {
    sheet: &'a Sheet,
    ticks: Ticks,
    /// The last tick done.
    end: u32,
}

impl Run<'_> {
    /// The row of an operation, but for its place in the order.
    fn row(&self, operation: &Operation) -> Row {
        let (task, span) = (operation.task, &operation.span);
        let last = span.last.unwrap_or(self.end);
        let lost = operation.lost().to_vec();
        let attempt = lost.last().map_or(span.first, |lost| lost.tick + 1);
        Row {
            task,
            arguments: self.arguments(operation),
            first_tick: span.first,
            last_tick: span.last,
            own_ticks: self.ticks.own(task, span.first, last),
            answers: answers(&operation.kind),
            outcome: outcome(operation),
            lost,
            commit_tick: self.ticks.commit(task, attempt, last),
            order: None,
            exchanges: operation.exchanges.clone(),
        }
    }

    fn arguments(&self, operation: &Operation) -> Arguments {
        match &operation.kind {
            Kind::Read { word, .. } => Arguments::Read { word: *word },
            Kind::Swap { .. } => Arguments::Swap { pairs: operation.exchanges[0].pairs.clone() },
            Kind::Transaction { registers, first_command, .. } => Arguments::Transaction {
                registers: *registers,
                commands: self.commands(*first_command),
            },
        }
    }

    /// The commands up to COMMIT.
    fn commands(&self, first_command: usize) -> Vec<Command> {
        let commands = self.sheet.commands[first_command..].iter();
        commands.take_while(|command| !matches!(command, Command::Commit)).copied().collect()
    }
}

fn answers(kind: &Kind) -> Vec<u32> {
    match kind {
        Kind::Read { answer, .. } => answer.iter().copied().collect(),
        Kind::Swap { answer } => answer.iter().map(|answer| u32::from(*answer)).collect(),
        Kind::Transaction { answers, .. } => answers.clone(),
    }
}

fn outcome(operation: &Operation) -> &'static str {
    if operation.span.last.is_none() {
        return "cut off";
    }
    match operation.kind {
        Kind::Read { .. } => "answered",
        Kind::Swap { answer: Some(true) } => "yes",
        Kind::Swap { .. } => "no",
        Kind::Transaction { .. } if operation.spent => "spent",
        Kind::Transaction { .. } => "committed",
    }
}

pub fn cause(lost: &LostAttempt) -> &'static str {
    match lost.cause {
        Cause::StaleVersion => "stale version",
        Cause::RejectedCommit => "rejected commit",
    }
}
