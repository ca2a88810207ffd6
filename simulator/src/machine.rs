//! The machine of document 01: its state, its ticks and the plain commands.

use crate::exchange::Exchange;
use crate::observer::{Event, Observer, Statement};
use crate::reading::Reading;
use crate::releases::{ToCome, Waiting};
use crate::sheet::{Command, Sheet, BLOCK_VALUES, MAX_BLOCKS, MAX_PAIRS, MAX_PUT, MAX_TASKS};
use crate::sheet::{MAX_WORDS, REGISTERS};
use crate::transaction::Transaction;

/// Every block has a store, and every task has as many copies as a transaction may PUT.
pub const STORES: usize = MAX_TASKS * MAX_PUT + MAX_BLOCKS;

/// A task's status: its exchange is undecided, has failed or has committed.
pub const UNDECIDED: u8 = 0;
pub const FAILED: u8 = 1;
pub const COMMITTED: u8 = 2;

#[derive(Clone, Copy, Debug, PartialEq, Eq)]
pub struct Word {
    pub value: u32,
    pub count: u8,
    pub valid: bool,
    pub task: u8,
}

impl Word {
    pub const fn fresh(value: u32) -> Word {
        Word { value, count: 0, valid: true, task: 0 }
    }
}

/// One word of an exchange. Bank words are numbered from `MAX_WORDS` on.
#[derive(Clone, Copy, Debug, Default, PartialEq, Eq)]
pub struct Pair {
    pub word: u8,
    pub old: u32,
    pub new: u32,
}

impl Pair {
    pub fn changes(&self) -> bool {
        self.old != self.new
    }
}

/// What a job does in its next tick.
#[derive(Clone, Copy, Debug, PartialEq, Eq)]
pub enum Step {
    /// The first statement of the next command of the body.
    Command,
    ReadLook,
    ReadFetch,
    /// The reading of a bank word at the first GET or PUT of its block.
    FirstLook,
    FirstFetch,
    /// The reading of a bank word that checks the version.
    AgainLoad,
    AgainLook,
    AgainFetch,
    GetValue,
    CopyValue,
    PutValue,
    /// The exchange of a SWAP or of a COMMIT.
    Start,
    Test,
    Load,
    Look,
    Fetch,
    Save,
    FailAfterSave,
    Mark,
    Install,
    FailAfterInstall,
    Commit,
    Clean,
    CleanMark,
}

pub struct Job {
    pub registers: [u32; REGISTERS],
    pub next: usize,
    pub end: usize,
    pub step: Step,
    /// The word that the reading under way has loaded.
    pub loaded: Word,
    /// The PAIRs that wait, or the pairs of the exchange under way.
    pub pairs: [Pair; MAX_PAIRS],
    pub pair_count: usize,
    pub exchange: Exchange,
    pub transaction: Transaction,
}

/// The counts of a task: the numbers of its T line.
#[derive(Clone, Copy, Debug, Default, PartialEq, Eq)]
pub struct Counts {
    pub finished: u32,
    pub spent: u32,
    /// Attempts of transactions that were lost: by a stale version or a rejected commit.
    pub lost: u32,
    pub ticks: u32,
    pub dropped: u32,
}

pub struct Machine<'a> {
    pub sheet: &'a Sheet,
    pub words: [Word; MAX_WORDS + MAX_BLOCKS],
    pub status: [u8; MAX_TASKS],
    pub save: [[u32; MAX_PAIRS]; MAX_TASKS],
    pub stores: [[u32; BLOCK_VALUES]; STORES],
    pub copies: [[u8; MAX_PUT]; MAX_TASKS],
    pub jobs: [Job; MAX_TASKS],
    pub counts: [Counts; MAX_TASKS],
    /// One bit for each task whose job is unfinished.
    pub unfinished: u8,
    pub to_come: ToCome<'a>,
    pub waiting: Waiting,
    pub tick: u32,
}

impl<'a> Machine<'a> {
    pub fn new(sheet: &'a Sheet) -> Machine<'a> {
        let mut machine = Machine {
            sheet,
            words: [Word::fresh(0); MAX_WORDS + MAX_BLOCKS],
            status: [UNDECIDED; MAX_TASKS],
            save: [[0; MAX_PAIRS]; MAX_TASKS],
            stores: [[0; BLOCK_VALUES]; STORES],
            copies: [[0; MAX_PUT]; MAX_TASKS],
            jobs: std::array::from_fn(|_| Job::new()),
            counts: [Counts::default(); MAX_TASKS],
            unfinished: 0,
            to_come: ToCome::new(&sheet.releases),
            waiting: Waiting::default(),
            tick: 0,
        };
        for (word, &value) in machine.words.iter_mut().zip(&sheet.words) {
            *word = Word::fresh(value);
        }
        machine.place_blocks();
        machine
    }

    /// Runs until no job is unfinished, no release waits and none is to come, or until the limit
    /// is done.
    pub fn run<O: Observer>(&mut self, limit: u32, observer: &mut O) {
        while self.tick < limit && self.work_left() {
            self.before_statement(observer);
            if self.unfinished == 0 {
                observer.idle(self.tick);
            } else {
                let task = (u8::BITS - 1 - self.unfinished.leading_zeros()) as usize;
                self.counts[task].ticks += 1;
                self.statement(task, observer);
                if self.unfinished & 1 << task == 0 {
                    observer.job_ends(self.tick, task);
                }
            }
            self.tick += 1;
        }
    }

    fn work_left(&self) -> bool {
        self.unfinished != 0 || !self.waiting.is_empty() || !self.to_come.is_empty()
    }

    #[inline]
    fn statement<O: Observer>(&mut self, task: usize, observer: &mut O) {
        match self.jobs[task].step {
            Step::Command => self.command(task, observer),
            Step::ReadLook => self.look(task, Reading::Read, observer),
            Step::ReadFetch => self.fetch(task, Reading::Read, observer),
            Step::FirstLook => self.look(task, Reading::First, observer),
            Step::FirstFetch => self.fetch(task, Reading::First, observer),
            Step::AgainLoad => self.load_again(task, observer),
            Step::AgainLook => self.look(task, Reading::Again, observer),
            Step::AgainFetch => self.fetch(task, Reading::Again, observer),
            Step::GetValue => self.get_value(task, observer),
            Step::CopyValue => self.copy_value(task, observer),
            Step::PutValue => self.put_value(task, observer),
            Step::Start => self.exchange_start(task, observer),
            Step::Test => self.exchange_test(task, observer),
            Step::Load => self.exchange_load(task, observer),
            Step::Look => self.exchange_look(task, observer),
            Step::Fetch => self.exchange_fetch(task, observer),
            Step::Save => self.exchange_save(task, observer),
            Step::FailAfterSave => self.fail_after_save(task, observer),
            Step::Mark => self.mark(task, observer),
            Step::Install => self.install(task, observer),
            Step::FailAfterInstall => self.fail_after_install(task, observer),
            Step::Commit => self.exchange_commit(task, observer),
            Step::Clean => self.clean(task, observer),
            Step::CleanMark => self.clean_mark(task, observer),
        }
    }

    #[inline]
    fn command<O: Observer>(&mut self, task: usize, observer: &mut O) {
        let job = &mut self.jobs[task];
        match self.sheet.commands[job.next] {
            Command::Load { register, value } => {
                observer.statement(self.tick, task, Statement::Load);
                job.registers[usize::from(register)] = value;
                self.advance(task);
            }
            Command::Add { register, other } => {
                observer.statement(self.tick, task, Statement::Add);
                let sum = job.register(register).wrapping_add(job.register(other));
                job.registers[usize::from(register)] = sum;
                self.advance(task);
            }
            Command::Read { word, .. } => {
                self.load(task, usize::from(word), Reading::Read, observer);
                observer.event(self.tick, task, Event::ReadBegins { word });
            }
            Command::Pair { word, old, new } => {
                observer.statement(self.tick, task, Statement::Pair);
                let (old, new) = (job.register(old), job.register(new));
                job.pairs[job.pair_count] = Pair { word, old, new };
                job.pair_count += 1;
                self.advance(task);
            }
            Command::Swap { .. } => self.exchange_start(task, observer),
            Command::Begin => self.begin(task, observer),
            Command::Get { block, .. } => self.get(task, usize::from(block), observer),
            Command::Put { block, .. } => self.put(task, usize::from(block), observer),
            Command::Commit => self.commit_transaction(task, observer),
        }
    }

    /// The command is done: the next one follows, or the job is finished.
    #[inline]
    pub fn advance(&mut self, task: usize) {
        let job = &mut self.jobs[task];
        job.next += 1;
        job.step = Step::Command;
        if job.next == job.end {
            self.unfinished &= !(1 << task);
            self.counts[task].finished += 1;
        }
    }

    /// Writes the register of the READ, SWAP or GET under way.
    #[inline]
    pub fn answer(&mut self, task: usize, value: u32) {
        let job = &mut self.jobs[task];
        if let Command::Read { register, .. }
        | Command::Swap { register }
        | Command::Get { register, .. } = self.sheet.commands[job.next]
        {
            job.registers[usize::from(register)] = value;
        }
    }
}

impl Job {
    fn new() -> Job {
        Job {
            registers: [0; REGISTERS],
            next: 0,
            end: 0,
            step: Step::Command,
            loaded: Word::fresh(0),
            pairs: [Pair::default(); MAX_PAIRS],
            pair_count: 0,
            exchange: Exchange::default(),
            transaction: Transaction::default(),
        }
    }

    pub fn start(&mut self, body: &std::ops::Range<usize>) {
        self.registers = [0; REGISTERS];
        self.next = body.start;
        self.end = body.end;
        self.step = Step::Command;
        self.pair_count = 0;
    }

    pub fn register(&self, number: u8) -> u32 {
        self.registers[usize::from(number)]
    }
}
