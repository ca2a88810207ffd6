//! What the chart says where the pointer rests: on a cell, a release, a change or an idle stretch.

use std::ops::Range;

use simulator::observer::{Cause, Fate};
use simulator::sheet::Block;

use crate::names::Names;
use crate::recording::sentences::sentence;
use crate::recording::statement::label;
use crate::recording::subject::Subject;
use crate::recording::{Contents, Done, Recording};

/// The statement with its subject, what it does, and what comes of it.
pub fn cell(tick: u32, names: &Names, done: &Done) -> String {
    let subject = done.subject.map(|subject| format!(" {}", names.of(subject))).unwrap_or_default();
    let task = names.of(Subject::Task(done.task));
    let mut title = format!("tick {tick}, {task}: {}{subject}", label(done.statement));
    title += &format!("\n{}", sentence(done.statement));
    match done.lost {
        Some(Cause::StaleVersion) => {
            title += "\nAn attempt is lost, stale version: the transaction restarts."
        }
        Some(Cause::RejectedCommit) => {
            title += "\nAn attempt is lost, rejected commit: the transaction restarts.";
        }
        None => {}
    }
    if done.ends_job {
        title += "\nThe job ends.";
    }
    title
}

pub fn release(tick: u32, task: &str, fate: Fate) -> String {
    let fate = match fate {
        Fate::Starts => "a release starts a job",
        Fate::Waits => "a release waits: the job is unfinished",
        Fate::StartsAfterWaiting => "a release that waited starts its job",
        Fate::Dropped => "a release is dropped: four wait already",
    };
    format!("before tick {tick}, {task}: {fate}")
}

pub fn idle(ticks: Range<u32>) -> String {
    format!("{}: idle, no task has a job", numbered(ticks))
}

pub fn preempted(ticks: Range<u32>, task: &str) -> String {
    format!("{}, {task}: the job is unfinished, a higher task runs", numbered(ticks))
}

fn numbered(ticks: Range<u32>) -> String {
    match ticks.len() {
        1 => format!("tick {}", ticks.start),
        _ => format!("ticks {} to {}", ticks.start, ticks.end - 1),
    }
}

/// The contents before a recorded tick.
fn contents_before(recording: &Recording, tick: usize) -> &Contents {
    let Some(previous) = tick.checked_sub(1) else { return &recording.before };
    &recording.ticks[previous].after
}

/// The old and the new values of a word or block that changes in a recorded tick.
pub fn change(recording: &Recording, names: &Names, subject: Subject, tick: usize) -> String {
    let (old, new) = (contents_before(recording, tick), contents_before(recording, tick + 1));
    let values = new_values(subject, old, new);
    format!("tick {}, {}: {values}", recording.first as usize + tick, names.of(subject))
}

fn new_values(subject: Subject, old: &Contents, new: &Contents) -> String {
    match subject {
        Subject::Word(word) => format!("{} -> {}", old.words[word], new.words[word]),
        Subject::Block(block) => new_block_values(&old.blocks[block], &new.blocks[block]),
        // A task has no value.
        Subject::Task(_) => String::new(),
    }
}

fn new_block_values(old: &Block, new: &Block) -> String {
    let pairs = old.values.iter().zip(&new.values).enumerate();
    let differing = pairs.filter(|(_, (old, new))| old != new);
    let values = differing.map(|(offset, (old, new))| format!(", at {offset}: {old} -> {new}"));
    format!("version {} -> {}{}", old.version, new.version, values.collect::<String>())
}

/// Everything that a word or block holds before a recorded tick.
pub fn before(recording: &Recording, names: &Names, subject: Subject, tick: usize) -> String {
    let contents = contents_before(recording, tick);
    let held = match subject {
        Subject::Word(word) => contents.words[word].to_string(),
        Subject::Block(block) => {
            let Block { version, values } = contents.blocks[block];
            format!("version {version}, values {}", values.map(|value| value.to_string()).join(" "))
        }
        Subject::Task(_) => String::new(),
    };
    format!("before tick {}, {}: {held}", recording.first as usize + tick, names.of(subject))
}
