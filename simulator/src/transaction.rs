//! Transactions: BEGIN, GET, PUT and COMMIT over block stores and bank words.

use crate::machine::{Machine, Pair, Step, Word};
use crate::observer::{Cause, Event, Observer, Statement};
use crate::reading::Reading;
use crate::sheet::{Command, BLOCK_VALUES, MAX_BLOCKS, MAX_PUT, MAX_WORDS, REGISTERS, TOP_VERSION};

/// A transaction under way.
#[derive(Default)]
pub struct Transaction {
    /// The registers as BEGIN found them, and the command after BEGIN.
    kept: [u32; REGISTERS],
    first: usize,
    /// One bit for each touched block, and its bank word as first read.
    touched: u16,
    remembered: [u32; MAX_BLOCKS],
    /// One bit for each PUT block, its copy slot, and the PUT blocks in the order of the slots.
    put: u16,
    slot: [u8; MAX_BLOCKS],
    put_blocks: [u8; MAX_PUT],
    put_count: usize,
    /// How many values the first PUT under way has copied.
    copied: usize,
    /// The value that a GET has fetched and not yet answered.
    fetched: u32,
}

impl Transaction {
    pub fn has_touched_nothing(&self) -> bool {
        self.touched == 0
    }

    fn has_touched(&self, block: usize) -> bool {
        self.touched & 1 << block != 0
    }

    fn has_put(&self, block: usize) -> bool {
        self.put & 1 << block != 0
    }

    fn touch_nothing(&mut self) {
        self.touched = 0;
        self.put = 0;
        self.put_count = 0;
        self.copied = 0;
    }
}

pub fn bank_word(block: usize) -> usize {
    MAX_WORDS + block
}

pub fn version_of(bank_value: u32) -> u32 {
    bank_value / 256
}

pub fn store_of(bank_value: u32) -> usize {
    (bank_value % 256) as usize
}

fn bank_value(version: u32, store: usize) -> u32 {
    version * 256 + store as u32
}

impl Machine<'_> {
    /// The copies of all tasks come first, then the blocks.
    pub fn place_blocks(&mut self) {
        let tasks = self.sheet.bodies.len();
        for (task, copies) in self.copies.iter_mut().enumerate() {
            *copies = std::array::from_fn(|slot| (MAX_PUT * task + slot) as u8);
        }
        for (number, block) in self.sheet.blocks.iter().enumerate() {
            let store = MAX_PUT * tasks + number;
            self.stores[store] = block.values;
            self.words[bank_word(number)] = Word::fresh(bank_value(block.version, store));
        }
    }

    pub fn begin<O: Observer>(&mut self, task: usize, observer: &mut O) {
        observer.statement(self.tick, task, Statement::Begin);
        let job = &mut self.jobs[task];
        job.transaction.kept = job.registers;
        job.transaction.first = job.next + 1;
        job.transaction.touch_nothing();
        let registers = &job.registers;
        let first = job.next + 1;
        observer.event(self.tick, task, Event::TransactionBegins { registers, first });
        self.advance(task);
    }

    pub fn get<O: Observer>(&mut self, task: usize, block: usize, observer: &mut O) {
        if self.jobs[task].transaction.has_touched(block) {
            self.get_value(task, observer);
        } else {
            self.load(task, bank_word(block), Reading::First, observer);
        }
    }

    pub fn put<O: Observer>(&mut self, task: usize, block: usize, observer: &mut O) {
        let transaction = &self.jobs[task].transaction;
        if transaction.has_put(block) {
            self.put_value(task, observer);
        } else if transaction.has_touched(block) {
            self.copy_value(task, observer);
        } else {
            self.load(task, bank_word(block), Reading::First, observer);
        }
    }

    /// The block and offset of the GET or PUT under way.
    fn place_under_way(&self, task: usize) -> (usize, usize) {
        match self.sheet.commands[self.jobs[task].next] {
            Command::Get { block, offset, .. } | Command::Put { block, offset, .. } => {
                (usize::from(block), usize::from(offset))
            }
            _ => (0, 0),
        }
    }

    fn copy_store(&self, task: usize, block: usize) -> usize {
        let slot = self.jobs[task].transaction.slot[block];
        usize::from(self.copies[task][usize::from(slot)])
    }

    pub fn remember<O: Observer>(&mut self, task: usize, value: u32, observer: &mut O) {
        let (block, _) = self.place_under_way(task);
        let version = version_of(value);
        observer.event(self.tick, task, Event::Touches { block: block as u8, version });
        let job = &mut self.jobs[task];
        job.transaction.touched |= 1 << block;
        job.transaction.remembered[block] = value;
        job.step = match self.sheet.commands[job.next] {
            Command::Put { .. } => Step::CopyValue,
            _ => Step::GetValue,
        };
    }

    pub fn get_value<O: Observer>(&mut self, task: usize, observer: &mut O) {
        let (block, offset) = self.place_under_way(task);
        let transaction = &self.jobs[task].transaction;
        let store = if transaction.has_put(block) {
            observer.statement(self.tick, task, Statement::GetFromCopy);
            self.copy_store(task, block)
        } else {
            observer.statement(self.tick, task, Statement::GetFromBlock);
            store_of(transaction.remembered[block])
        };
        self.jobs[task].transaction.fetched = self.stores[store][offset];
        self.jobs[task].step = Step::AgainLoad;
    }

    /// One of the eight ticks in which a first PUT copies its block into the next copy store.
    pub fn copy_value<O: Observer>(&mut self, task: usize, observer: &mut O) {
        observer.statement(self.tick, task, Statement::PutCopies);
        let (block, _) = self.place_under_way(task);
        let transaction = &mut self.jobs[task].transaction;
        let from = store_of(transaction.remembered[block]);
        let to = usize::from(self.copies[task][transaction.put_count]);
        let offset = transaction.copied;
        self.stores[to][offset] = self.stores[from][offset];
        transaction.copied = (offset + 1) % BLOCK_VALUES;
        let all_copied = transaction.copied == 0;
        self.jobs[task].step = if all_copied { Step::AgainLoad } else { Step::CopyValue };
    }

    pub fn load_again<O: Observer>(&mut self, task: usize, observer: &mut O) {
        let (block, _) = self.place_under_way(task);
        self.load(task, bank_word(block), Reading::Again, observer);
    }

    pub fn check_version<O: Observer>(&mut self, task: usize, value: u32, observer: &mut O) {
        let (block, _) = self.place_under_way(task);
        let job = &mut self.jobs[task];
        if version_of(value) != version_of(job.transaction.remembered[block]) {
            self.restart(task, Cause::StaleVersion, observer);
        } else if let Command::Put { .. } = self.sheet.commands[job.next] {
            let transaction = &mut job.transaction;
            transaction.put |= 1 << block;
            transaction.slot[block] = transaction.put_count as u8;
            transaction.put_blocks[transaction.put_count] = block as u8;
            transaction.put_count += 1;
            job.step = Step::PutValue;
        } else {
            let answer = job.transaction.fetched;
            observer.event(self.tick, task, Event::Gets { answer });
            self.answer(task, answer);
            self.advance(task);
        }
    }

    pub fn put_value<O: Observer>(&mut self, task: usize, observer: &mut O) {
        observer.statement(self.tick, task, Statement::PutWrites);
        let (block, offset) = self.place_under_way(task);
        if let Command::Put { register, .. } = self.sheet.commands[self.jobs[task].next] {
            let store = self.copy_store(task, block);
            self.stores[store][offset] = self.jobs[task].register(register);
        }
        self.advance(task);
    }

    /// A stale version and a rejected commit count alike.
    fn attempt_lost<O: Observer>(&mut self, task: usize, cause: Cause, observer: &mut O) {
        self.counts[task].lost += 1;
        observer.event(self.tick, task, Event::AttemptLost { cause });
    }

    fn restart<O: Observer>(&mut self, task: usize, cause: Cause, observer: &mut O) {
        self.attempt_lost(task, cause, observer);
        let job = &mut self.jobs[task];
        job.registers = job.transaction.kept;
        job.transaction.touch_nothing();
        job.next = job.transaction.first;
        job.step = Step::Command;
    }

    pub fn commit_transaction<O: Observer>(&mut self, task: usize, observer: &mut O) {
        let transaction = &self.jobs[task].transaction;
        let causes = self.causes_of_spending(task);
        if transaction.has_touched_nothing() {
            observer.statement(self.tick, task, Statement::CommitOfNothing);
            observer.event(self.tick, task, Event::CommitsNothing);
            observer.event(self.tick, task, Event::TransactionEnds);
            self.advance(task);
        } else if causes != 0 {
            observer.statement(self.tick, task, Statement::CommitSpent);
            observer.event(self.tick, task, Event::Spent { causes });
            self.counts[task].spent += 1;
            self.unfinished &= !(1 << task);
        } else {
            observer.statement(self.tick, task, Statement::CommitGathers);
            self.gather(task);
            self.jobs[task].step = Step::Start;
        }
    }

    /// One bit for each PUT block at the last version: with any, the COMMIT is spent.
    fn causes_of_spending(&self, task: usize) -> u16 {
        let transaction = &self.jobs[task].transaction;
        let at_top =
            |block: &&u8| version_of(transaction.remembered[usize::from(**block)]) == TOP_VERSION;
        let put_blocks = &transaction.put_blocks[..transaction.put_count];
        put_blocks.iter().filter(at_top).fold(0, |causes, block| causes | 1 << block)
    }

    /// The pairs of the commit: the touched blocks' bank words by rising block number. That every
    /// number is tried does not show: change 5 leaves the list, its order and its one tick.
    fn gather(&mut self, task: usize) {
        for block in 0..MAX_BLOCKS {
            let transaction = &self.jobs[task].transaction;
            if !transaction.has_touched(block) {
                continue;
            }
            let old = transaction.remembered[block];
            let new = if transaction.has_put(block) {
                bank_value(version_of(old) + 1, self.copy_store(task, block))
            } else {
                old
            };
            let job = &mut self.jobs[task];
            job.pairs[job.pair_count] = Pair { word: bank_word(block) as u8, old, new };
            job.pair_count += 1;
        }
    }

    /// The last tick of a transaction's exchange.
    pub fn end_commit<O: Observer>(&mut self, task: usize, answer: bool, observer: &mut O) {
        if !answer {
            self.restart(task, Cause::RejectedCommit, observer);
            return;
        }
        let transaction = &self.jobs[task].transaction;
        let put_blocks = &transaction.put_blocks[..transaction.put_count];
        for (slot, &block) in put_blocks.iter().enumerate() {
            let old_store = store_of(transaction.remembered[usize::from(block)]);
            self.copies[task][slot] = old_store as u8;
        }
        observer.event(self.tick, task, Event::TransactionEnds);
        self.advance(task);
    }
}
