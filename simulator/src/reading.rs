//! Readings of a word: for READ, and of bank words for GET and PUT.

use crate::machine::{Machine, Step, Word, COMMITTED};
use crate::observer::{Event, Observer, Statement};

/// What a reading of a word is for.
#[derive(Clone, Copy, Debug, PartialEq, Eq)]
pub enum Reading {
    /// The command READ.
    Read,
    /// A block's first GET or PUT, which remembers the bank word.
    First,
    /// The check that the version is still the remembered one.
    Again,
}

impl Machine<'_> {
    #[inline]
    pub fn own_value_counts(&self, word: Word) -> bool {
        word.valid || self.status[usize::from(word.task)] == COMMITTED
    }

    #[inline]
    pub fn saved_value(&self, word: Word) -> u32 {
        self.save[usize::from(word.task)][usize::from(word.count)]
    }

    pub fn current_value(&self, word: Word) -> u32 {
        if self.own_value_counts(word) {
            word.value
        } else {
            self.saved_value(word)
        }
    }

    #[inline]
    pub fn load<O: Observer>(
        &mut self,
        task: usize,
        word: usize,
        reading: Reading,
        observer: &mut O,
    ) {
        let (statement, next) = match reading {
            Reading::Read => (Statement::ReadLoad, Step::ReadLook),
            Reading::First => (Statement::FirstLoad, Step::FirstLook),
            Reading::Again => (Statement::AgainLoad, Step::AgainLook),
        };
        observer.statement(self.tick, task, statement);
        self.jobs[task].loaded = self.words[word];
        self.jobs[task].step = next;
    }

    /// Goes by the word as loaded, with the status as it is in this tick.
    #[inline]
    pub fn look<O: Observer>(&mut self, task: usize, reading: Reading, observer: &mut O) {
        let (statement, next) = match reading {
            Reading::Read => (Statement::ReadLook, Step::ReadFetch),
            Reading::First => (Statement::FirstLook, Step::FirstFetch),
            Reading::Again => (Statement::AgainLook, Step::AgainFetch),
        };
        observer.statement(self.tick, task, statement);
        let loaded = self.jobs[task].loaded;
        if self.own_value_counts(loaded) {
            self.end_reading(task, reading, loaded.value, observer);
        } else {
            self.jobs[task].step = next;
        }
    }

    #[inline]
    pub fn fetch<O: Observer>(&mut self, task: usize, reading: Reading, observer: &mut O) {
        let statement = match reading {
            Reading::Read => Statement::ReadFetch,
            Reading::First => Statement::FirstFetch,
            Reading::Again => Statement::AgainFetch,
        };
        observer.statement(self.tick, task, statement);
        let value = self.saved_value(self.jobs[task].loaded);
        self.end_reading(task, reading, value, observer);
    }

    /// The last tick of a reading.
    #[inline]
    fn end_reading<O: Observer>(
        &mut self,
        task: usize,
        reading: Reading,
        value: u32,
        observer: &mut O,
    ) {
        match reading {
            Reading::Read => {
                observer.event(self.tick, task, Event::ReadEnds { answer: value });
                self.answer(task, value);
                self.advance(task);
            }
            Reading::First => self.remember(task, value, observer),
            Reading::Again => self.check_version(task, value, observer),
        }
    }
}
