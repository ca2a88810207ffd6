//! What happened in each tick of a run, recorded for the charts.

pub mod sentences;
pub mod series;
pub mod signs;
pub mod statement;
pub mod subject;

use std::rc::Rc;

use simulator::machine::{Counts, Machine};
use simulator::observer::{Cause, Event, Fate, NoObserver, Observer, Statement};
use simulator::sheet::{Block, Sheet, MAX_TASKS, REGISTERS};
use simulator::transaction::{bank_word, store_of, version_of};

use subject::{Standing, Subject};

/// The words and blocks of the W and B lines.
#[derive(Clone, Debug, PartialEq, Eq)]
pub struct Contents {
    pub words: Vec<u32>,
    pub blocks: Vec<Block>,
}

/// The statement of a tick.
#[derive(Clone, Debug)]
pub struct Done {
    pub task: usize,
    pub statement: Statement,
    /// The command that the statement belongs to, as its number among the sheet's commands.
    pub command: usize,
    pub subject: Option<Subject>,
    /// What Commit answered, if this was one.
    pub commit: Option<bool>,
    /// Why an attempt is lost, if one is: the transaction goes back to the command after BEGIN.
    pub lost: Option<Cause>,
    pub ends_job: bool,
}

/// A register with another value than before the tick.
#[derive(Clone, Copy, Debug, PartialEq, Eq)]
pub struct RegisterChange {
    pub task: usize,
    pub register: usize,
    pub value: u32,
}

#[derive(Clone, Debug)]
pub struct Tick {
    /// Nothing in an idle tick.
    pub done: Option<Done>,
    /// What became of the releases before the statement, each with its task.
    pub releases: Vec<(usize, Fate)>,
    /// The tasks with an unfinished job below the one that ran.
    pub preempted: Vec<usize>,
    /// The contents after the tick. Ticks that change nothing share them with the tick before.
    pub after: Rc<Contents>,
    /// What the statement, and the starts of jobs before it, changed in registers.
    pub registers: Vec<RegisterChange>,
}

impl Tick {
    /// Those of its tasks whose release had this fate.
    pub fn tasks_with(&self, fate: Fate) -> impl Iterator<Item = usize> + '_ {
        let found = self.releases.iter().filter(move |release| release.1 == fate);
        found.map(|release| release.0)
    }
}

/// A part of a run.
#[derive(Clone, Debug)]
pub struct Recording {
    pub tasks: usize,
    /// The number of the first recorded tick, and the contents before it.
    pub first: u32,
    pub before: Contents,
    pub ticks: Vec<Tick>,
    /// The ticks of the whole run, and each task's counts of it.
    pub run_ticks: u32,
    pub counts: Vec<Counts>,
}

impl Recording {
    /// Runs the sheet for at most `limit` ticks and records the ticks from `first` to `last`, as far as the run comes.
    pub fn new(sheet: &Sheet, limit: u32, first: u32, last: u32) -> Recording {
        let mut machine = Machine::new(sheet);
        machine.run(first.min(limit), &mut NoObserver);
        let before = contents(&machine);
        let mut current = Rc::new(before.clone());
        let mut ticks = Vec::new();
        for tick in machine.tick..=last {
            if tick == limit {
                break;
            }
            let Some(recorded) = record_tick(&mut machine, tick, &current) else {
                break;
            };
            current = recorded.after.clone();
            ticks.push(recorded);
        }
        machine.run(limit, &mut NoObserver);
        let tasks = sheet.bodies.len();
        let counts = machine.counts[..tasks].to_vec();
        Recording { tasks, first, before, ticks, run_ticks: machine.tick, counts }
    }
}

/// Does one tick, or nothing if the run has stopped.
fn record_tick(machine: &mut Machine, tick: u32, before: &Rc<Contents>) -> Option<Tick> {
    let tasks = machine.sheet.bodies.len();
    let standings: Vec<Standing> = (0..tasks).map(|task| Standing::of(machine, task)).collect();
    let registers = all_registers(machine);
    let mut observed = Observed::default();
    machine.run(tick + 1, &mut observed);
    if machine.tick == tick {
        return None;
    }
    let done = observed.statement.map(|(task, statement)| Done {
        task,
        statement,
        command: standings[task].command(),
        subject: standings[task].subject(statement),
        commit: observed.commit,
        lost: observed.lost,
        ends_job: machine.unfinished & 1 << task == 0,
    });
    let ran = |task: usize| done.as_ref().is_some_and(|done| done.task == task);
    // Only the task that ran can have ended its job in this tick.
    let has_job = |task: &usize| machine.unfinished & 1 << task != 0;
    let preempted = (0..tasks).filter(|task| has_job(task) && !ran(*task)).collect();
    let after = contents(machine);
    let after = if after == **before { before.clone() } else { Rc::new(after) };
    let registers = register_changes(&registers, &all_registers(machine));
    Some(Tick { done, releases: observed.releases, preempted, after, registers })
}

type Registers = [[u32; REGISTERS]; MAX_TASKS];

fn all_registers(machine: &Machine) -> Registers {
    std::array::from_fn(|task| machine.jobs[task].registers)
}

fn register_changes(before: &Registers, after: &Registers) -> Vec<RegisterChange> {
    let mut changes = Vec::new();
    for (task, (before, after)) in before.iter().zip(after).enumerate() {
        for (register, (before, &value)) in before.iter().zip(after).enumerate() {
            if *before != value {
                changes.push(RegisterChange { task, register, value });
            }
        }
    }
    changes
}

fn contents(machine: &Machine) -> Contents {
    let current = |cell: usize| machine.current_value(machine.words[cell]);
    let block = |number| {
        let bank = current(bank_word(number));
        Block { version: version_of(bank), values: machine.stores[store_of(bank)] }
    };
    Contents {
        words: (0..machine.sheet.words.len()).map(current).collect(),
        blocks: (0..machine.sheet.blocks.len()).map(block).collect(),
    }
}

/// What the run tells about one tick.
#[derive(Default)]
struct Observed {
    statement: Option<(usize, Statement)>,
    commit: Option<bool>,
    lost: Option<Cause>,
    releases: Vec<(usize, Fate)>,
}

impl Observer for Observed {
    fn statement(&mut self, _tick: u32, task: usize, statement: Statement) {
        self.statement = Some((task, statement));
    }

    fn event(&mut self, _tick: u32, _task: usize, event: Event<'_>) {
        match event {
            Event::ExchangeCommits { answer } => self.commit = Some(answer),
            Event::CommitsNothing => self.commit = Some(true),
            Event::AttemptLost { cause } => self.lost = Some(cause),
            _ => {}
        }
    }

    fn release(&mut self, _tick: u32, task: usize, fate: Fate) {
        self.releases.push((task, fate));
    }
}
