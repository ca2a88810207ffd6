//! The history of a run: its releases, and its operations with their arguments, ticks and answers.

use crate::machine::{Machine, Pair};
use crate::observer::{Cause, Event, Fate, Observer, Statement};
use crate::sheet::{Sheet, MAX_TASKS, REGISTERS};
pub use crate::span::Span;
pub use crate::tally::Tally;

/// A READ, a SWAP or a transaction with its arguments as recorded.
#[derive(Clone, Debug)]
pub enum Kind {
    Read {
        word: u8,
        answer: Option<u32>,
    },
    Swap {
        answer: Option<bool>,
    },
    Transaction {
        registers: [u32; REGISTERS],
        /// The command after BEGIN.
        first_command: usize,
        /// What the GETs of the last attempt gave.
        answers: Vec<u32>,
        /// The attempts before it, all lost.
        lost: Vec<LostAttempt>,
    },
}

/// The tick in which an attempt of a transaction was lost, and why.
#[derive(Clone, Copy, Debug, PartialEq, Eq)]
pub struct LostAttempt {
    pub tick: u32,
    pub cause: Cause,
}

/// One exchange: a SWAP has one, a transaction one for each COMMIT it came to.
#[derive(Clone, Debug)]
pub struct Exchange {
    pub pairs: Vec<Pair>,
    pub span: Span,
    /// The tick of the latest Load.
    pub load: u32,
    /// A word differed from its old value.
    pub differs: bool,
    /// What Commit answered.
    pub committed: Option<bool>,
    pub tally: Tally,
}

#[derive(Clone, Debug)]
pub struct Operation {
    pub task: usize,
    pub kind: Kind,
    pub span: Span,
    /// The tick that gives its place in the order: it has one once its answer is decided.
    pub place: Option<u32>,
    /// It has committed in the sense of 'Demand 3 in full'.
    pub committed: bool,
    pub spent: bool,
    pub exchanges: Vec<Exchange>,
}

/// A release that has arrived. One that neither started nor was dropped waits.
#[derive(Clone, Copy, Debug, PartialEq, Eq)]
pub struct Arrived {
    pub task: usize,
    pub tick: u32,
    /// The tick before which its job started.
    pub started: Option<u32>,
    pub dropped: bool,
}

impl Arrived {
    pub fn waits(&self) -> bool {
        self.started.is_none() && !self.dropped
    }
}

/// Keeps every release of a run in the order of arrival, and every operation in the order in which
/// they began: a waiting job has none until it starts.
#[derive(Default)]
pub struct History {
    pub releases: Vec<Arrived>,
    pub operations: Vec<Operation>,
    /// For each task, its latest operation.
    latest: [Option<usize>; MAX_TASKS],
    /// For each task, its statements so far.
    ticks: [u32; MAX_TASKS],
}

impl Operation {
    /// It ended and was not spent, or the tick limit cut it short after it committed.
    pub fn stands_in_order(&self) -> bool {
        match self.span.last {
            Some(_) => !self.spent,
            None => self.committed,
        }
    }

    /// The attempts that it lost: only a transaction can lose any.
    pub fn lost(&self) -> &[LostAttempt] {
        match &self.kind {
            Kind::Transaction { lost, .. } => lost,
            _ => &[],
        }
    }
}

impl History {
    pub fn new() -> History {
        History::default()
    }

    fn begin(&mut self, tick: u32, task: usize, kind: Kind) {
        self.latest[task] = Some(self.operations.len());
        self.operations.push(Operation {
            task,
            kind,
            span: Span::new(tick, self.ticks[task]),
            place: None,
            committed: false,
            spent: false,
            exchanges: Vec::new(),
        });
    }

    fn latest_operation(&mut self, task: usize) -> Option<&mut Operation> {
        self.latest[task].and_then(|number| self.operations.get_mut(number))
    }

    /// An exchange belongs to the transaction under way, or else begins a SWAP.
    fn begin_exchange(&mut self, tick: u32, task: usize, pairs: &[Pair]) {
        let in_transaction = self.latest_operation(task).is_some_and(|operation| {
            let is_transaction = matches!(operation.kind, Kind::Transaction { .. });
            is_transaction && operation.span.last.is_none()
        });
        if !in_transaction {
            self.begin(tick, task, Kind::Swap { answer: None });
        }
        let span = Span::new(tick, self.ticks[task]);
        if let Some(operation) = self.latest_operation(task) {
            operation.exchanges.push(Exchange {
                pairs: pairs.to_vec(),
                span,
                load: tick,
                differs: false,
                committed: None,
                tally: Tally::default(),
            });
        }
    }
}

/// Runs the sheet: the machine at the end, and the history.
pub fn run_with_history(sheet: &Sheet, limit: u32) -> (Machine<'_>, History) {
    let mut machine = Machine::new(sheet);
    let mut history = History::new();
    machine.run(limit, &mut history);
    (machine, history)
}

impl Observer for History {
    fn release(&mut self, tick: u32, task: usize, fate: Fate) {
        let arrived = Arrived { task, tick, started: None, dropped: fate == Fate::Dropped };
        match fate {
            Fate::Starts => self.releases.push(Arrived { started: Some(tick), ..arrived }),
            Fate::Waits | Fate::Dropped => self.releases.push(arrived),
            Fate::StartsAfterWaiting => {
                let waits = |release: &&mut Arrived| release.task == task && release.waits();
                if let Some(oldest) = self.releases.iter_mut().find(waits) {
                    oldest.started = Some(tick);
                }
            }
        }
    }

    fn statement(&mut self, _tick: u32, task: usize, statement: Statement) {
        self.ticks[task] += 1;
        let own_tick = self.ticks[task];
        if let Some(operation) = self.latest_operation(task) {
            operation.span.go_on(own_tick);
            if let Some(exchange) = operation.exchange_under_way() {
                exchange.span.go_on(own_tick);
                exchange.tally.take_statement(statement);
            }
        }
    }

    fn event(&mut self, tick: u32, task: usize, event: Event<'_>) {
        match event {
            Event::ReadBegins { word } => {
                self.begin(tick, task, Kind::Read { word, answer: None });
            }
            Event::TransactionBegins { registers, first } => {
                let kind = Kind::Transaction {
                    registers: *registers,
                    first_command: first,
                    answers: Vec::new(),
                    lost: Vec::new(),
                };
                self.begin(tick, task, kind);
            }
            Event::ExchangeBegins { pairs } => self.begin_exchange(tick, task, pairs),
            _ => {}
        }
        if let Some(operation) = self.latest_operation(task) {
            operation.take(tick, event);
            operation.take_answer(tick, event);
        }
    }
}

impl Operation {
    fn exchange_under_way(&mut self) -> Option<&mut Exchange> {
        self.exchanges.last_mut().filter(|exchange| exchange.span.last.is_none())
    }

    fn take(&mut self, tick: u32, event: Event<'_>) {
        if let (task, Some(exchange)) = (self.task, self.exchange_under_way()) {
            exchange.tally.take_event(task, event);
        }
        let is_swap = matches!(self.kind, Kind::Swap { .. });
        match event {
            Event::ReadBegins { .. } => self.place = Some(tick),
            Event::ExchangeLoads => {
                if let Some(exchange) = self.exchanges.last_mut() {
                    exchange.load = tick;
                }
            }
            Event::ExchangeDiffers => {
                if let Some(exchange) = self.exchanges.last_mut() {
                    exchange.differs = true;
                }
            }
            Event::ExchangeCommits { answer } => {
                let Some(exchange) = self.exchanges.last_mut() else { return };
                exchange.committed = Some(answer);
                self.committed = answer;
                if answer {
                    self.place = Some(tick);
                } else if is_swap {
                    self.place = Some(if exchange.differs { exchange.load } else { tick });
                }
            }
            Event::ExchangeEnds { .. } => {
                if let Some(exchange) = self.exchanges.last_mut() {
                    exchange.span.end(tick);
                }
                if is_swap {
                    self.span.end(tick);
                }
            }
            Event::CommitsNothing => {
                self.committed = true;
                self.place = Some(tick);
            }
            Event::ReadEnds { .. } | Event::TransactionEnds => self.span.end(tick),
            Event::Spent { .. } => {
                self.spent = true;
                self.span.end(tick);
            }
            _ => {}
        }
    }

    fn take_answer(&mut self, tick: u32, event: Event<'_>) {
        match (&mut self.kind, event) {
            (Kind::Read { answer, .. }, Event::ReadEnds { answer: given }) => *answer = Some(given),
            (Kind::Swap { answer }, Event::ExchangeEnds { answer: given }) => *answer = Some(given),
            (Kind::Transaction { answers, .. }, Event::Gets { answer }) => answers.push(answer),
            (Kind::Transaction { answers, lost, .. }, Event::AttemptLost { cause }) => {
                answers.clear();
                lost.push(LostAttempt { tick, cause });
            }
            _ => {}
        }
    }
}
