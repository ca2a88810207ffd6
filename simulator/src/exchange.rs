//! The exchange of document 01: SWAP's statements, also those of a transaction's bank words.

use crate::machine::{Machine, Step, Word, COMMITTED, FAILED, UNDECIDED};
use crate::observer::{Event, Observer, Statement};
use crate::sheet::{Command, MAX_PAIRS};

/// An exchange under way.
pub struct Exchange {
    /// i: the word being exchanged; at Commit, how many words Clean visits.
    pub position: usize,
    /// j: the word Clean is at.
    pub cleaned: usize,
    /// The value found for word i.
    pub found: u32,
    pub answer: bool,
    /// For each word, what it held when it was loaded, and whether its own value did not count.
    pub init: [Word; MAX_PAIRS],
    pub overlapped: [bool; MAX_PAIRS],
}

impl Default for Exchange {
    fn default() -> Exchange {
        Exchange {
            position: 0,
            cleaned: 0,
            found: 0,
            answer: false,
            init: [Word::fresh(0); MAX_PAIRS],
            overlapped: [false; MAX_PAIRS],
        }
    }
}

impl Machine<'_> {
    pub fn exchange_start<O: Observer>(&mut self, task: usize, observer: &mut O) {
        observer.statement(self.tick, task, Statement::ExchangeStart);
        let job = &mut self.jobs[task];
        let pairs = &job.pairs[..job.pair_count];
        observer.event(self.tick, task, Event::ExchangeBegins { pairs });
        self.status[task] = UNDECIDED;
        job.exchange.position = 0;
        job.step = Step::Test;
    }

    pub fn exchange_test<O: Observer>(&mut self, task: usize, observer: &mut O) {
        observer.statement(self.tick, task, Statement::ExchangeTest);
        let job = &self.jobs[task];
        let done = job.exchange.position == job.pair_count || self.status[task] == FAILED;
        self.jobs[task].step = if done { Step::Commit } else { Step::Load };
    }

    pub fn exchange_load<O: Observer>(&mut self, task: usize, observer: &mut O) {
        observer.statement(self.tick, task, Statement::ExchangeLoad);
        observer.event(self.tick, task, Event::ExchangeLoads);
        let job = &mut self.jobs[task];
        let position = job.exchange.position;
        job.exchange.init[position] = self.words[usize::from(job.pairs[position].word)];
        job.step = Step::Look;
    }

    pub fn exchange_look<O: Observer>(&mut self, task: usize, observer: &mut O) {
        observer.statement(self.tick, task, Statement::ExchangeLook);
        let position = self.jobs[task].exchange.position;
        let init = self.jobs[task].exchange.init[position];
        let counts = self.own_value_counts(init);
        let job = &mut self.jobs[task];
        job.exchange.found = init.value;
        job.exchange.overlapped[position] = !counts;
        job.step = if counts { Step::Save } else { Step::Fetch };
    }

    pub fn exchange_fetch<O: Observer>(&mut self, task: usize, observer: &mut O) {
        observer.statement(self.tick, task, Statement::ExchangeFetch);
        let init = self.jobs[task].exchange.init[self.jobs[task].exchange.position];
        self.jobs[task].exchange.found = self.saved_value(init);
        self.jobs[task].step = Step::Save;
    }

    pub fn exchange_save<O: Observer>(&mut self, task: usize, observer: &mut O) {
        observer.statement(self.tick, task, Statement::ExchangeSave);
        let job = &self.jobs[task];
        let position = job.exchange.position;
        let pair = job.pairs[position];
        self.save[task][position] = job.exchange.found;
        let next = if job.exchange.found != pair.old {
            observer.event(self.tick, task, Event::ExchangeDiffers);
            Step::FailAfterSave
        } else if job.exchange.overlapped[position] && pair.changes() {
            Step::Mark
        } else {
            Step::Install
        };
        self.jobs[task].step = next;
    }

    /// The word differs from its old value: it is not installed, and Clean does not visit it.
    pub fn fail_after_save<O: Observer>(&mut self, task: usize, observer: &mut O) {
        observer.statement(self.tick, task, Statement::FailAfterSave);
        self.status[task] = FAILED;
        self.jobs[task].step = Step::Test;
    }

    pub fn mark<O: Observer>(&mut self, task: usize, observer: &mut O) {
        observer.statement(self.tick, task, Statement::Mark);
        let exchange = &self.jobs[task].exchange;
        let marked = usize::from(exchange.init[exchange.position].task);
        observer.event(self.tick, task, Event::Marks { task: marked });
        self.status[marked] = FAILED;
        self.jobs[task].step = Step::Install;
    }

    pub fn install<O: Observer>(&mut self, task: usize, observer: &mut O) {
        let position = self.jobs[task].exchange.position;
        let init = self.jobs[task].exchange.init[position];
        let installed = self.installed_word(task, position);
        let word = &mut self.words[usize::from(self.jobs[task].pairs[position].word)];
        if *word == init {
            *word = installed;
            observer.statement(self.tick, task, Statement::InstallDone);
            self.jobs[task].exchange.position += 1;
            self.jobs[task].step = Step::Test;
        } else {
            observer.statement(self.tick, task, Statement::InstallNotDone);
            self.jobs[task].step = Step::FailAfterInstall;
        }
    }

    /// The word that Install puts in place of word `position`.
    fn installed_word(&self, task: usize, position: usize) -> Word {
        let value = self.jobs[task].pairs[position].new;
        Word { value, count: position as u8, valid: false, task: task as u8 }
    }

    /// Clean visits the word whose Install was not done, too: it may have to Mark there.
    pub fn fail_after_install<O: Observer>(&mut self, task: usize, observer: &mut O) {
        observer.statement(self.tick, task, Statement::FailAfterInstall);
        self.status[task] = FAILED;
        self.jobs[task].exchange.position += 1;
        self.jobs[task].step = Step::Test;
    }

    pub fn exchange_commit<O: Observer>(&mut self, task: usize, observer: &mut O) {
        let answer = self.status[task] == UNDECIDED;
        if answer {
            self.status[task] = COMMITTED;
            observer.statement(self.tick, task, Statement::CommitYes);
        } else {
            observer.statement(self.tick, task, Statement::CommitNo);
        }
        observer.event(self.tick, task, Event::ExchangeCommits { answer });
        let exchange = &mut self.jobs[task].exchange;
        exchange.answer = answer;
        exchange.cleaned = 0;
        if exchange.position == 0 {
            self.end_exchange(task, observer);
        } else {
            self.jobs[task].step = Step::Clean;
        }
    }

    pub fn clean<O: Observer>(&mut self, task: usize, observer: &mut O) {
        let exchange = &self.jobs[task].exchange;
        let position = exchange.cleaned;
        let pair = self.jobs[task].pairs[position];
        let init = exchange.init[position];
        let as_new = exchange.answer && pair.changes();
        let overlapped = exchange.overlapped[position];
        let installed = self.installed_word(task, position);
        let word = &mut self.words[usize::from(pair.word)];
        let still_installed = *word == installed;
        if still_installed && as_new {
            *word = Word { value: pair.new, count: 0, valid: true, task: task as u8 };
            observer.statement(self.tick, task, Statement::CleanAsNew);
        } else if still_installed {
            *word = init;
            observer.statement(self.tick, task, Statement::CleanBackToInit);
        } else {
            observer.statement(self.tick, task, Statement::CleanNothing);
        }
        if !still_installed && !as_new && overlapped {
            self.jobs[task].step = Step::CleanMark;
        } else {
            self.clean_next(task, observer);
        }
    }

    pub fn clean_mark<O: Observer>(&mut self, task: usize, observer: &mut O) {
        observer.statement(self.tick, task, Statement::CleanMark);
        let exchange = &self.jobs[task].exchange;
        let marked = usize::from(exchange.init[exchange.cleaned].task);
        observer.event(self.tick, task, Event::Marks { task: marked });
        self.status[marked] = FAILED;
        self.clean_next(task, observer);
    }

    fn clean_next<O: Observer>(&mut self, task: usize, observer: &mut O) {
        let exchange = &mut self.jobs[task].exchange;
        exchange.cleaned += 1;
        if exchange.cleaned == exchange.position {
            self.end_exchange(task, observer);
        } else {
            self.jobs[task].step = Step::Clean;
        }
    }

    fn end_exchange<O: Observer>(&mut self, task: usize, observer: &mut O) {
        let answer = self.jobs[task].exchange.answer;
        observer.event(self.tick, task, Event::ExchangeEnds { answer });
        self.jobs[task].pair_count = 0;
        if let Command::Swap { .. } = self.sheet.commands[self.jobs[task].next] {
            self.answer(task, u32::from(answer));
            self.advance(task);
        } else {
            self.end_commit(task, answer, observer);
        }
    }
}
