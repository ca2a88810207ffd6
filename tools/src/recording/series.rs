//! How the current value of each word, and the version of each block, changes over the ticks.

use simulator::sheet::Block;

use super::subject::Subject;
use super::{Contents, Recording};

/// A new current value: after which recorded tick, in short, and in full where there is room.
#[derive(Clone, Debug, PartialEq, Eq)]
pub struct Change {
    pub tick: usize,
    pub short: String,
    pub full: String,
}

/// One word or block over the recorded ticks.
#[derive(Clone, Debug)]
pub struct Series {
    pub subject: Subject,
    start: String,
    pub changes: Vec<Change>,
}

impl Series {
    /// The value before a recorded tick.
    pub fn before(&self, tick: usize) -> &str {
        let earlier = self.changes.iter().take_while(|change| change.tick < tick);
        earlier.last().map_or(&self.start, |change| &change.short)
    }
}

/// Every declared word, then every declared block.
pub fn all_series(recording: &Recording) -> Vec<Series> {
    let Contents { words, blocks } = &recording.before;
    let words = (0..words.len()).map(|word| word_series(recording, word));
    let blocks = (0..blocks.len()).map(|block| block_series(recording, block));
    words.chain(blocks).collect()
}

fn word_series(recording: &Recording, word: usize) -> Series {
    let value = |contents: &Contents| contents.words[word];
    let change = |tick, _old: u32, new: u32| {
        let text = new.to_string();
        Change { tick, short: text.clone(), full: text }
    };
    let start = value(&recording.before).to_string();
    Series { subject: Subject::Word(word), start, changes: changes(recording, value, change) }
}

fn block_series(recording: &Recording, block: usize) -> Series {
    let value = |contents: &Contents| contents.blocks[block];
    let change = |tick, old: Block, new: Block| {
        let short = format!("version {}", new.version);
        let full = format!("{short}{}", new_values(&old, &new));
        Change { tick, short, full }
    };
    let start = format!("version {}", value(&recording.before).version);
    Series { subject: Subject::Block(block), start, changes: changes(recording, value, change) }
}

/// The offsets at which the values differ, with the new value.
fn new_values(old: &Block, new: &Block) -> String {
    let values = old.values.iter().zip(&new.values).enumerate();
    let differing = values.filter(|(_, (old, new))| old != new);
    differing.map(|(offset, (_, new))| format!(", at {offset}: {new}")).collect()
}

/// Compares the contents before and after each tick.
fn changes<T: Copy + PartialEq>(
    recording: &Recording,
    value: impl Fn(&Contents) -> T,
    change: impl Fn(usize, T, T) -> Change,
) -> Vec<Change> {
    let mut found = Vec::new();
    let mut current = value(&recording.before);
    for (tick, recorded) in recording.ticks.iter().enumerate() {
        let next = value(&recorded.after);
        if next != current {
            found.push(change(tick, current, next));
        }
        current = next;
    }
    found
}
