//! Valid sheets made by chance: few words and blocks, many tasks, releases inside operations.

use crate::attempts;
use crate::bursts;
use crate::history::History;
use crate::random::Random;
use crate::sheet::TOP_VERSION;
use crate::sheet::{MAX_BLOCKS, MAX_COMMANDS, MAX_PAIRS, MAX_PUT, MAX_RELEASES, MAX_TASKS};
use crate::wide;
use crate::write::*;
use crate::{run_observed, TOP_LIMIT};

/// What the bodies of a sheet are made of.
#[derive(Clone, Copy, Debug, PartialEq, Eq)]
pub enum Style {
    Words,
    Blocks,
    Mixed,
    /// Blocks whose versions start at or just below the top.
    TopVersions,
    /// One to three words or blocks, and tasks released one inside the other: the narrowest races.
    Nested,
    /// One to three tasks with short bodies, released again and again before their jobs have ended.
    Bursts,
    /// Two or three tasks with transactions on one or two blocks, released inside each other's
    /// attempts: attempts are lost one after another.
    Attempts,
    /// Two or three tasks with transactions on up to eight of nine to sixteen blocks, released inside
    /// each other's attempts.
    Wide,
    /// Eight tasks and releases without a pause: tens of thousands of ticks.
    Long,
    /// A few dozen bytes.
    Tiny,
}

impl Style {
    /// All but the one whose runs take long.
    pub const SHORT: [Style; 9] = [
        Style::Words,
        Style::Blocks,
        Style::Mixed,
        Style::TopVersions,
        Style::Nested,
        Style::Bursts,
        Style::Attempts,
        Style::Wide,
        Style::Tiny,
    ];
}

/// Registers 0, 1 and 2 hold 0, 1 and 2; readings go to 3 to 6; answers go to 7.
const SMALL_VALUES: usize = 3;
pub const READINGS: [u8; 4] = [3, 4, 5, 6];
const ANSWER: u8 = 7;

struct Author<'a> {
    random: &'a mut Random,
    style: Style,
    words: usize,
    blocks: usize,
    /// The start values of the words.
    starts: Vec<u8>,
}

/// A valid sheet as its commands, END included.
pub fn commands(random: &mut Random, style: Style) -> Vec<Bytes> {
    let (words, blocks) = match style {
        Style::Words => (random.pick(&[1, 2, 2, 3, 3, 4, 8, 32]), 0),
        Style::Blocks | Style::TopVersions => (0, random.pick(&[1, 1, 2, 2, 3, 5, 9, 16])),
        Style::Mixed => (random.within(1, 3), random.within(1, 3)),
        Style::Nested => random.pick(&[(1, 0), (2, 0), (3, 0), (0, 1), (0, 2), (0, 3)]),
        Style::Bursts => random.pick(&[(1, 0), (2, 0), (0, 1), (0, 1), (0, 2), (1, 1)]),
        Style::Attempts => (0, random.within(1, 2)),
        Style::Wide => (0, random.pick(&[9, 12, MAX_BLOCKS, MAX_BLOCKS])),
        Style::Long => random.pick(&[(8, 0), (3, 0), (0, 2), (8, 8), (2, 3)]),
        Style::Tiny => random.pick(&[(1, 0), (2, 0), (0, 1)]),
    };
    Author { random, style, words, blocks, starts: Vec::new() }.write()
}

impl Author<'_> {
    fn write(mut self) -> Vec<Bytes> {
        for _ in 0..self.words {
            self.starts.push(self.random.below(SMALL_VALUES) as u8);
        }
        let mut declared: Vec<Bytes> =
            self.starts.iter().map(|&start| word(start.into())).collect();
        for number in 0..self.blocks {
            declared.push(self.block(number));
        }
        let tasks = match self.style {
            Style::Nested => self.random.within(3, 5),
            Style::Bursts => self.random.within(1, 3),
            Style::Attempts | Style::Wide => self.random.within(2, 3),
            Style::Long => MAX_TASKS,
            Style::Tiny => self.random.within(1, 2),
            _ => self.random.within(2, MAX_TASKS),
        };
        let share = MAX_COMMANDS / tasks;
        let bodies: Vec<Vec<Bytes>> = (0..tasks).map(|_| self.body(share)).collect();
        let front = [sheet(&declared), sheet(&bodies.concat())].concat();
        let releases = match self.style {
            Style::Nested => self.nested_releases(&sheet(&declared), &bodies),
            Style::Bursts => bursts::releases(self.random, &front, tasks),
            Style::Attempts | Style::Wide => attempts::releases(self.random, &front, tasks),
            _ => self.releases(tasks),
        };
        [declared, bodies.concat(), releases, vec![end()]].concat()
    }

    fn block(&mut self, number: usize) -> Bytes {
        // Wide: the highest block is what ends a COMMIT most often, if any.
        let top_share = if number + 1 == self.blocks { 30 } else { 8 };
        let version = match self.style {
            Style::TopVersions => TOP_VERSION - self.random.below(4) as u32,
            Style::Bursts if self.random.percent(50) => TOP_VERSION - self.random.below(2) as u32,
            Style::Attempts if self.random.percent(40) => {
                TOP_VERSION - self.random.within(1, 3) as u32
            }
            Style::Wide if self.random.percent(top_share) => {
                TOP_VERSION - self.random.below(2) as u32
            }
            _ => self.random.below(1000) as u32,
        };
        let first = self.random.below(90) as u32;
        block(version, std::array::from_fn(|offset| first + offset as u32))
    }

    /// TASK and its body: at least one command, and at most `share`.
    fn body(&mut self, share: usize) -> Vec<Bytes> {
        let mut body = Vec::new();
        if self.style != Style::Tiny || self.random.percent(50) {
            body.push(load(1, 1));
        }
        if self.words > 0 && self.style != Style::Tiny {
            body.push(load(2, 2));
        }
        let pieces = match self.style {
            Style::Nested | Style::Tiny => 1,
            Style::Wide => self.random.within(1, 2),
            // None: the LOADs alone, a job of one or two ticks.
            Style::Bursts => usize::from(self.random.percent(75)),
            Style::Long => 40,
            _ => self.random.within(1, 3),
        };
        for _ in 0..pieces {
            let piece = self.piece();
            if body.len() + piece.len() <= share {
                body.extend(piece);
            }
        }
        if body.is_empty() {
            body.push(add(1, 0));
        }
        body.insert(0, task());
        body
    }

    fn piece(&mut self) -> Vec<Bytes> {
        match self.style {
            Style::Attempts => return self.transaction(),
            Style::Wide => return wide::transaction(self.random, self.blocks),
            _ => {}
        }
        let of_words = self.words > 0 && (self.blocks == 0 || self.random.percent(50));
        match self.random.below(10) {
            0 => vec![add(self.register(), self.register())],
            1 | 2 if of_words => vec![read(self.random.pick(&READINGS), self.word())],
            _ if of_words => self.exchange(),
            _ => self.transaction(),
        }
    }

    fn word(&mut self) -> u8 {
        self.random.below(self.words) as u8
    }

    fn register(&mut self) -> u8 {
        self.random.pick(&READINGS)
    }

    /// READs, PAIRs and a SWAP; the old values are often what the words hold.
    fn exchange(&mut self) -> Vec<Bytes> {
        let most = self.words.min(MAX_PAIRS);
        // How many words, and how often the old value is a reading, or else the start value.
        let (count, reading, start) = match self.style {
            Style::Nested => (most, 25, 95),
            Style::Tiny => (self.random.within(1, most), 0, 50),
            _ => (self.random.within(1, most), 60, 50),
        };
        let read_only = if self.random.percent(25) { 100 } else { 20 };
        let mut piece = Vec::new();
        for (position, word) in self.random.different(count, self.words).into_iter().enumerate() {
            let old = if self.random.percent(reading) {
                let register = READINGS[position % READINGS.len()];
                piece.push(read(register, word));
                register
            } else if self.random.percent(start) {
                self.starts[usize::from(word)]
            } else {
                self.random.below(SMALL_VALUES) as u8
            };
            let new = match self.random.percent(read_only) {
                true => old,
                false => self.random.below(SMALL_VALUES) as u8,
            };
            piece.push(pair(word, old, new));
        }
        piece.push(swap(ANSWER));
        piece
    }

    fn transaction(&mut self) -> Vec<Bytes> {
        let blocks = self.random.different(self.blocks.min(8), self.blocks);
        let may_put = &blocks[..blocks.len().min(MAX_PUT)];
        // With many blocks more commands, so that a transaction may touch as many as it can.
        let (least, most) = match self.style {
            Style::Tiny => (0, 2),
            Style::Attempts => (2, 5),
            _ => (0, self.blocks.max(6)),
        };
        // How often the blocks are only read, and from which of ten numbers on a command is a PUT.
        let (read_only, first_put) = match self.style {
            Style::Attempts => (10, 5),
            _ => (25, 7),
        };
        let read_only = self.random.percent(read_only);
        let mut piece = vec![begin()];
        for _ in 0..self.random.within(least, most) {
            let offset = self.random.below(3) as u8;
            let register = self.register();
            piece.push(match self.random.below(10) {
                0 => load(register, self.random.next_number() as u32),
                1 | 2 => add(register, 1),
                number if number >= first_put && !read_only => {
                    put(self.random.pick(may_put), offset, register)
                }
                _ => get(register, self.random.pick(&blocks), offset),
            });
        }
        piece.push(commit());
        piece
    }

    /// Low tasks start early, so that the releases of high ones fall inside their operations.
    fn releases(&mut self, tasks: usize) -> Vec<Bytes> {
        let (count, horizon) = match self.style {
            Style::Long => (MAX_RELEASES, self.random.pick(&[20_000, 65_500])),
            Style::Tiny => (self.random.within(0, 2), 16),
            _ => (self.random.within(2, 40), self.random.pick(&[30, 60, 120, 250, 600])),
        };
        let mut releases = Vec::new();
        for number in 0..count {
            let task = if number < tasks { number } else { self.random.below(tasks) };
            let tick = if number == 0 { 0 } else { self.random.below(horizon) };
            releases.push((tick as u16, task as u8));
        }
        releases.sort_unstable();
        releases.dedup();
        releases.into_iter().map(|(tick, task)| release(tick, task)).collect()
    }

    /// Each task is released while the one below it is in its exchange, had it run alone.
    fn nested_releases(&mut self, declared: &[u8], bodies: &[Vec<Bytes>]) -> Vec<Bytes> {
        let mut tick = 0;
        let mut releases = Vec::new();
        for (task, body) in bodies.iter().enumerate() {
            releases.push(release(tick as u16, task as u8));
            let (first, last) = exchange_of_task_alone(declared, body);
            tick += self.random.within(first + 1, last.max(first + 1));
        }
        releases
    }
}

/// The first and last tick of the task's last exchange if it is released at tick 0.
fn exchange_of_task_alone(declared: &[u8], body: &[Bytes]) -> (usize, usize) {
    let alone = sheet(&[declared.to_vec(), sheet(body), release(0, 0), end()]);
    let mut history = History::new();
    // A refusal leaves the history empty.
    let _ = run_observed(&alone, TOP_LIMIT, &mut history);
    let exchange = history.operations.iter().flat_map(|operation| &operation.exchanges).last();
    exchange.map_or((0, 10), |exchange| {
        let span = exchange.span;
        (span.first as usize, span.last.unwrap_or(span.first) as usize)
    })
}
