//! The data of the page: bytes for each tick, and lists of releases, changes and exchanges. `script/run.js` reads them.

use simulator::history::{Exchange, History};
use simulator::observer::{Cause, Fate};
use simulator::sheet::{Command, Sheet, BLOCK_VALUES, REGISTERS};

use super::base64;
use crate::json::{list, object, string, strings};
use crate::names::Names;
use crate::recording::sentences::SENTENCES;
use crate::recording::signs::SIGNS;
use crate::recording::statement::{kind, label, Kind};
use crate::recording::subject::Subject;
use crate::recording::{Contents, Done, Recording};

/// The bits of a tick's `run` byte above the task's number.
pub const ENDS_JOB: u8 = 1 << 3;
pub const ANSWERS_YES: u8 = 1 << 4;
pub const ANSWERS_NO: u8 = 1 << 5;
pub const LOST_STALE: u8 = 1 << 6;
pub const LOST_REJECTED: u8 = 1 << 7;

/// The last tick of an exchange that the limit cut off: above every tick.
pub const NOT_ENDED: u16 = u16::MAX;

/// The numbers of one block: its version, then its values.
const BLOCK_NUMBERS: usize = 1 + BLOCK_VALUES;

/// Everything that changes has a number of its own, its place: the words, the blocks, the registers of each task.
pub struct Places {
    words: usize,
    blocks: usize,
}

impl Places {
    pub fn of(sheet: &Sheet) -> Places {
        Places { words: sheet.words.len(), blocks: sheet.blocks.len() }
    }

    /// The contents by place. With all ceilings reached there are 32 + 16 * 9, and 64 registers: one byte.
    pub fn contents(&self, contents: &Contents) -> Vec<u32> {
        let mut numbers = contents.words.clone();
        for block in &contents.blocks {
            numbers.push(block.version);
            numbers.extend(block.values);
        }
        numbers
    }

    pub fn register(&self, task: usize, register: usize) -> usize {
        self.words + self.blocks * BLOCK_NUMBERS + task * REGISTERS + register
    }
}

/// The whole data as JSON.
pub fn written(sheet: &Sheet, recording: &Recording, history: &History, names: &Names) -> String {
    let named = |subjects: Vec<Subject>| strings(subjects.into_iter().map(|one| names.of(one)));
    let places = Places::of(sheet);
    object(&[
        ("ticks", recording.ticks.len().to_string()),
        ("tasks", named((0..recording.tasks).map(Subject::Task).collect())),
        ("words", named((0..sheet.words.len()).map(Subject::Word).collect())),
        ("blocks", named((0..sheet.blocks.len()).map(Subject::Block).collect())),
        ("totals", totals(recording)),
        ("bodies", list(sheet.bodies.iter().map(|body| list([body.start, body.end])))),
        ("commands", strings(sheet.commands.iter().map(command_text))),
        ("kinds", list(Kind::ALL.map(kind_object))),
        ("signs", strings(SIGNS)),
        ("statements", statements()),
        ("start", list(places.contents(&recording.before))),
        ("each", each_tick(recording)),
        ("releases", releases(recording)),
        ("changes", changes(&places, recording)),
        ("exchanges", exchanges(history)),
    ])
}

/// For each task its lost attempts and its dropped releases in the whole run.
fn totals(recording: &Recording) -> String {
    list(recording.counts.iter().map(|counts| list([counts.lost, counts.dropped])))
}

fn kind_object(kind: Kind) -> String {
    object(&[
        ("colour", string(kind.colour())),
        ("explanation", string(kind.explanation())),
        ("dark", kind.is_dark().to_string()),
        ("outlined", (kind == Kind::WriteNothing).to_string()),
    ])
}

/// For each statement its word, its kind and its sentence.
fn statements() -> String {
    list(SENTENCES.map(|(statement, sentence)| {
        let kind = Kind::ALL.iter().position(|other| *other == kind(statement));
        let kind = kind.expect("every kind is among all");
        list([string(label(statement)), kind.to_string(), string(sentence)])
    }))
}

/// A command as the text form writes it.
fn command_text(command: &Command) -> String {
    match *command {
        Command::Load { register, value } => format!("LOAD r{register} {value}"),
        Command::Add { register, other } => format!("ADD r{register} r{other}"),
        Command::Read { register, word } => format!("READ r{register} w{word}"),
        Command::Pair { word, old, new } => format!("PAIR w{word} r{old} r{new}"),
        Command::Swap { register } => format!("SWAP r{register}"),
        Command::Begin => "BEGIN".to_string(),
        Command::Get { register, block, offset } => format!("GET r{register} b{block} {offset}"),
        Command::Put { block, offset, register } => format!("PUT b{block} {offset} r{register}"),
        Command::Commit => "COMMIT".to_string(),
    }
}

/// What every tick has: a byte each, two for the command. An idle tick has statement 0.
fn each_tick(recording: &Recording) -> String {
    let ticks = &recording.ticks;
    let of_done = |byte: fn(&Done) -> u8| -> Vec<u8> {
        ticks.iter().map(|tick| tick.done.as_ref().map_or(0, byte)).collect()
    };
    let commands = ticks.iter().map(|tick| tick.done.as_ref().map_or(0, |done| done.command));
    let preempted =
        ticks.iter().map(|tick| tick.preempted.iter().fold(0, |bits, task| bits | 1 << task));
    object(&[
        ("statement", bytes(&of_done(|done| done.statement as u8 + 1))),
        ("run", bytes(&of_done(run_byte))),
        ("subject", bytes(&of_done(|done| subject_byte(done.subject)))),
        ("command", sixteen_bits(commands.map(|command| command as u16))),
        ("preempted", bytes(&preempted.collect::<Vec<u8>>())),
    ])
}

fn run_byte(done: &Done) -> u8 {
    let ends = if done.ends_job { ENDS_JOB } else { 0 };
    let answer = match done.commit {
        None => 0,
        Some(true) => ANSWERS_YES,
        Some(false) => ANSWERS_NO,
    };
    let lost = match done.lost {
        None => 0,
        Some(Cause::StaleVersion) => LOST_STALE,
        Some(Cause::RejectedCommit) => LOST_REJECTED,
    };
    done.task as u8 | ends | answer | lost
}

/// A word, a block or a task in one byte: the kind above five bits of its number, and 0 for none.
fn subject_byte(subject: Option<Subject>) -> u8 {
    match subject {
        None => 0,
        Some(Subject::Word(word)) => 1 << 5 | word as u8,
        Some(Subject::Block(block)) => 2 << 5 | block as u8,
        Some(Subject::Task(task)) => 3 << 5 | task as u8,
    }
}

fn releases(recording: &Recording) -> String {
    let (mut ticks, mut tasks, mut fates) = (Vec::new(), Vec::new(), Vec::new());
    for (tick, recorded) in recording.ticks.iter().enumerate() {
        for (task, fate) in &recorded.releases {
            ticks.push(tick as u16);
            tasks.push(*task as u8);
            fates.push(fate_byte(*fate));
        }
    }
    object(&[("tick", sixteen_bits(ticks)), ("task", bytes(&tasks)), ("fate", bytes(&fates))])
}

pub fn fate_byte(fate: Fate) -> u8 {
    match fate {
        Fate::Starts => 0,
        Fate::Waits => 1,
        Fate::StartsAfterWaiting => 2,
        Fate::Dropped => 3,
    }
}

/// Each new number of a place, with the tick after which it is there.
fn changes(places: &Places, recording: &Recording) -> String {
    let (mut ticks, mut changed, mut values) = (Vec::new(), Vec::new(), Vec::new());
    let mut add = |tick: usize, place: usize, value: u32| {
        ticks.push(tick as u16);
        changed.push(place as u8);
        values.extend(value.to_le_bytes());
    };
    let mut before = &recording.before;
    for (tick, recorded) in recording.ticks.iter().enumerate() {
        let after = &*recorded.after;
        // Ticks that change nothing share their contents with the tick before.
        if !std::ptr::eq(before, after) {
            let numbers = places.contents(before).into_iter().zip(places.contents(after));
            for (place, (old, new)) in numbers.enumerate() {
                if old != new {
                    add(tick, place, new);
                }
            }
        }
        before = after;
        for change in &recorded.registers {
            add(tick, places.register(change.task, change.register), change.value);
        }
    }
    object(&[("tick", sixteen_bits(ticks)), ("place", bytes(&changed)), ("value", bytes(&values))])
}

/// Every exchange in the order in which they began, with a byte for each of its numbers: it takes at most 76 ticks of its own.
fn exchanges(history: &History) -> String {
    let operations = history.operations.iter();
    let mut all: Vec<(usize, &Exchange)> = operations
        .flat_map(|operation| operation.exchanges.iter().map(|exchange| (operation.task, exchange)))
        .collect();
    all.sort_by_key(|(_, exchange)| exchange.span.first);
    let ticks = |tick: fn(&Exchange) -> u16| sixteen_bits(all.iter().map(|one| tick(one.1)));
    let each = |number: fn(&Exchange) -> u32| {
        bytes(&all.iter().map(|one| number(one.1) as u8).collect::<Vec<u8>>())
    };
    object(&[
        ("task", bytes(&all.iter().map(|one| one.0 as u8).collect::<Vec<u8>>())),
        ("first", ticks(|exchange| exchange.span.first as u16)),
        ("last", ticks(|exchange| exchange.span.last.map_or(NOT_ENDED, |last| last as u16))),
        ("own", each(|exchange| exchange.span.own_ticks())),
        ("words", each(|exchange| exchange.pairs.len() as u32)),
        ("answer", each(|exchange| exchange.committed.map_or(0, |yes| if yes { 2 } else { 1 }))),
        ("tried", each(|exchange| exchange.tally.tried)),
        ("differed", each(|exchange| exchange.tally.differed)),
        ("fetched", each(|exchange| exchange.tally.fetched)),
        ("marked", each(|exchange| exchange.tally.marked)),
        ("failed", each(|exchange| exchange.tally.failed)),
    ])
}

fn bytes(bytes: &[u8]) -> String {
    string(&base64::encoded(bytes))
}

/// Two bytes each, the lower one first. Ticks go to 65,534 and commands to 511.
fn sixteen_bits(numbers: impl IntoIterator<Item = u16>) -> String {
    let numbers: Vec<u8> = numbers.into_iter().flat_map(u16::to_le_bytes).collect();
    bytes(&numbers)
}
