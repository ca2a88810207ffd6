//! What a statement is about: the word, the block or the task that it reads, writes or marks.

use std::fmt;

use simulator::machine::{Job, Machine};
use simulator::observer::Statement;
use simulator::sheet::{Command, MAX_WORDS};

#[derive(Clone, Copy, Debug, PartialEq, Eq)]
pub enum Subject {
    Word(usize),
    Block(usize),
    Task(usize),
}

impl fmt::Display for Subject {
    fn fmt(&self, formatter: &mut fmt::Formatter<'_>) -> fmt::Result {
        match self {
            Subject::Word(number) => write!(formatter, "w{number}"),
            Subject::Block(number) => write!(formatter, "b{number}"),
            Subject::Task(number) => write!(formatter, "t{number}"),
        }
    }
}

/// What a task is at before a tick: enough to name the subject of the statement it does then.
#[derive(Clone, Copy, Debug)]
pub struct Standing {
    /// The command, and its number among the sheet's.
    command: Command,
    number: usize,
    /// The exchange's word i and the task that its init names; the same for Clean's j.
    exchanged: Subject,
    exchanged_task: Subject,
    cleaned: Subject,
    cleaned_task: Subject,
}

impl Standing {
    /// Where the task stands; a job that this tick releases stands at its first command.
    pub fn of(machine: &Machine, task: usize) -> Standing {
        let job = &machine.jobs[task];
        let under_way = machine.unfinished & 1 << task != 0;
        let next = if under_way { job.next } else { machine.sheet.bodies[task].start };
        let (exchanged, exchanged_task) = pair_subject(job, job.exchange.position);
        let (cleaned, cleaned_task) = pair_subject(job, job.exchange.cleaned);
        let command = machine.sheet.commands[next];
        Standing { command, number: next, exchanged, exchanged_task, cleaned, cleaned_task }
    }

    /// The number of the command under way among the sheet's commands.
    pub fn command(&self) -> usize {
        self.number
    }

    pub fn subject(&self, statement: Statement) -> Option<Subject> {
        match statement {
            Statement::Mark => Some(self.exchanged_task),
            Statement::CleanMark => Some(self.cleaned_task),
            Statement::ExchangeLoad
            | Statement::ExchangeLook
            | Statement::ExchangeFetch
            | Statement::ExchangeSave
            | Statement::FailAfterSave
            | Statement::InstallDone
            | Statement::InstallNotDone
            | Statement::FailAfterInstall => Some(self.exchanged),
            Statement::CleanAsNew | Statement::CleanBackToInit | Statement::CleanNothing => {
                Some(self.cleaned)
            }
            _ => self.command_subject(),
        }
    }

    fn command_subject(&self) -> Option<Subject> {
        match self.command {
            Command::Read { word, .. } | Command::Pair { word, .. } => {
                Some(Subject::Word(word.into()))
            }
            Command::Get { block, .. } | Command::Put { block, .. } => {
                Some(Subject::Block(block.into()))
            }
            _ => None,
        }
    }
}

/// The word of a pair, and the task that the word named when it was loaded.
fn pair_subject(job: &Job, index: usize) -> (Subject, Subject) {
    // Past the last pair there is no word; no statement asks for it then.
    let index = index.min(job.pairs.len() - 1);
    let cell = usize::from(job.pairs[index].word);
    let subject = match cell.checked_sub(MAX_WORDS) {
        Some(block) => Subject::Block(block),
        None => Subject::Word(cell),
    };
    (subject, Subject::Task(job.exchange.init[index].task.into()))
}
