//! Sheets that are turned down: cut, flipped and doubled bytes, passed ceilings, two faults at once.

use crate::contention::{self, Style};
use crate::random::Random;
use crate::write::*;

use crate::sheet::{MAX_BLOCKS, MAX_COMMANDS, MAX_PAIRS, MAX_RELEASES, MAX_TASKS, MAX_WORDS, PAIR};

/// Tiny sheets are shorter than this, so that as many cuts meet every byte.
pub const CUTS: u64 = 128;

/// Every cut of a tiny sheet, then every cut of the next one.
pub fn cut(seed: u64, index: u64) -> Bytes {
    let mut random = Random::new(seed, index / CUTS);
    let mut bytes = sheet(&contention::commands(&mut random, Style::Tiny));
    bytes.truncate((index % CUTS) as usize);
    bytes
}

/// One command doubled, left out or moved.
pub fn altered_commands(random: &mut Random) -> Bytes {
    let style = random.pick(&[Style::Tiny, Style::Words, Style::Mixed]);
    let mut commands = contention::commands(random, style);
    let place = random.below(commands.len());
    let other_place = random.below(commands.len());
    match random.below(4) {
        0 => commands.insert(place, commands[place].clone()),
        1 => drop(commands.remove(place)),
        2 => commands.swap(place, other_place),
        _ => {
            if let Some(place) = commands.iter().rposition(|command| command[0] == PAIR) {
                commands.insert(place, commands[place].clone());
            }
        }
    }
    sheet(&commands)
}

/// One byte flipped, doubled, left out, set or added.
pub fn altered_bytes(random: &mut Random) -> Bytes {
    let style = random.pick(&[Style::Tiny, Style::Words, Style::Mixed]);
    let mut bytes = sheet(&contention::commands(random, style));
    let place = random.below(bytes.len());
    match random.below(5) {
        0 => bytes[place] ^= 1 << random.below(8),
        1 => bytes.insert(place, bytes[place]),
        2 => drop(bytes.remove(place)),
        3 => bytes[place] = random.next_number() as u8,
        _ => bytes.push(random.next_number() as u8),
    }
    bytes
}

/// Bytes that mostly name commands, in no order.
pub fn noise(random: &mut Random) -> Bytes {
    let names = [1, 2, 3, 4, 5, 0x10, 0x11, 0x12, 0x13, 0x14, 0x20, 0x21, 0x22, 0x23];
    let length = random.below(60);
    let byte = |_| match random.below(10) {
        0 => random.next_number() as u8,
        1..=4 => random.below(9) as u8,
        _ => random.pick(&names),
    };
    (0..length).map(byte).collect()
}

fn words(count: usize) -> Bytes {
    word(7).repeat(count)
}

fn blocks(count: usize) -> Bytes {
    block(1, [3; 8]).repeat(count)
}

fn small_task() -> Bytes {
    sheet(&[task(), add(0, 0)])
}

fn releases(count: usize) -> Bytes {
    (0..count).flat_map(|tick| release(tick as u16, 0)).collect()
}

fn pairs(count: usize) -> Bytes {
    (0..count).flat_map(|word| pair(word as u8, 0, 1)).collect()
}

fn gets(count: usize) -> Bytes {
    (0..count).flat_map(|block| get(0, block as u8, 0)).collect()
}

fn puts(count: usize) -> Bytes {
    (0..count).flat_map(|block| put(block as u8, 0, 0)).collect()
}

fn body(commands: &[Bytes]) -> Bytes {
    sheet(&[task(), sheet(commands)])
}

/// Sheets that reach each ceiling (`past` = 0) or pass it by one (`past` = 1).
pub fn at_ceilings(past: usize) -> Vec<Bytes> {
    let with_end = |parts: &[Bytes]| sheet(&[sheet(parts), end()]);
    let swapped = |count| body(&[pairs(count), swap(0)]);
    let committed = |commands| body(&[begin(), commands, commit()]);
    vec![
        with_end(&[words(MAX_WORDS + past), small_task()]),
        with_end(&[blocks(MAX_BLOCKS + past), small_task()]),
        with_end(&[small_task().repeat(MAX_TASKS + past)]),
        with_end(&[task(), add(0, 0).repeat(MAX_COMMANDS + past)]),
        with_end(&[small_task(), task(), add(0, 0).repeat(MAX_COMMANDS - 1 + past)]),
        with_end(&[small_task(), releases(MAX_RELEASES + past)]),
        with_end(&[words(9), swapped(MAX_PAIRS + past)]),
        with_end(&[blocks(9), committed(gets(8 + past))]),
        with_end(&[blocks(9), committed(sheet(&[puts(4), gets(8 + past)]))]),
        with_end(&[blocks(9), committed(sheet(&[gets(5), puts(4 + past)]))]),
    ]
}

/// Sheets whose first faulty command has two or more faults.
pub fn two_faults() -> Vec<Bytes> {
    let full = MAX_COMMANDS - 1;
    let nine_blocks = blocks(9);
    vec![
        // Cut (2) and misplaced (4), past a ceiling (5), out of range (6).
        vec![0x10],
        sheet(&[words(MAX_WORDS), vec![0x01, 0]]),
        sheet(&[task(), vec![0x11, 8]]),
        // Misplaced (4) and past a ceiling (5).
        sheet(&[words(MAX_WORDS), small_task(), word(0)]),
        sheet(&[task(), add(0, 0).repeat(MAX_COMMANDS), swap(0)]),
        sheet(&[small_task().repeat(MAX_TASKS - 1), task(), task()]),
        // Misplaced (4) and out of range (6).
        load(8, 0),
        sheet(&[task(), get(0, 3, 0)]),
        sheet(&[small_task(), block(16_777_216, [0; 8])]),
        sheet(&[task(), release(0, 7)]),
        // Past a ceiling (5) and out of range (6).
        sheet(&[blocks(MAX_BLOCKS), block(16_777_216, [0; 8])]),
        sheet(&[task(), add(0, 0).repeat(MAX_COMMANDS), add(8, 0)]),
        sheet(&[small_task(), releases(MAX_RELEASES), release(9999, 5)]),
        sheet(&[words(9), task(), pairs(MAX_PAIRS), pair(40, 0, 0)]),
        sheet(&[nine_blocks.clone(), task(), begin(), gets(8), get(0, 200, 0)]),
        sheet(&[nine_blocks.clone(), task(), begin(), gets(8), put(200, 9, 9)]),
        sheet(&[nine_blocks, task(), begin(), puts(4), put(4, 8, 0)]),
        // Past a ceiling (5) and a word again (7).
        sheet(&[words(9), task(), pairs(MAX_PAIRS), pair(0, 0, 0)]),
        sheet(&[words(1), task(), add(0, 0).repeat(full), pair(0, 0, 0), pair(0, 0, 0)]),
        // Past a ceiling (5) and not rising (8).
        sheet(&[small_task(), releases(MAX_RELEASES), release(0, 0)]),
        // Out of range (6) and a word again (7).
        sheet(&[words(1), task(), pair(0, 0, 0), pair(0, 8, 0)]),
        // Out of range (6) and not rising (8).
        sheet(&[small_task(), release(5, 0), release(4, 1)]),
        // The body may not end: empty, PAIRs waiting, COMMIT missing.
        sheet(&[task(), task()]),
        sheet(&[words(1), task(), pair(0, 0, 0), end()]),
        sheet(&[blocks(1), task(), begin(), release(0, 9)]),
        sheet(&[words(1), task(), pair(0, 0, 0), begin()]),
        // Several bytes after END, a fault among them.
        sheet(&[small_task(), end(), vec![0xFF, 0xFF]]),
        // Equal releases, and falling at an equal tick.
        sheet(&[small_task(), release(5, 0), release(5, 0), end()]),
        sheet(&[small_task(), small_task(), release(5, 1), release(5, 0), end()]),
    ]
}
