//! Sheets written readably: one function for each command, and one that puts them together.

use crate::sheet;

/// The bytes of one command.
pub type Bytes = Vec<u8>;

pub fn sheet(commands: &[Bytes]) -> Bytes {
    commands.concat()
}

fn with_value(mut bytes: Bytes, value: u32) -> Bytes {
    bytes.extend_from_slice(&value.to_be_bytes());
    bytes
}

pub fn word(value: u32) -> Bytes {
    with_value(vec![sheet::WORD], value)
}

pub fn block(version: u32, values: [u32; 8]) -> Bytes {
    values.into_iter().fold(with_value(vec![sheet::BLOCK], version), with_value)
}

pub fn task() -> Bytes {
    vec![sheet::TASK]
}

pub fn release(tick: u16, task: u8) -> Bytes {
    let [high, low] = tick.to_be_bytes();
    vec![sheet::RELEASE, high, low, task]
}

pub fn end() -> Bytes {
    vec![sheet::END]
}

pub fn load(register: u8, value: u32) -> Bytes {
    with_value(vec![sheet::LOAD, register], value)
}

pub fn add(register: u8, other: u8) -> Bytes {
    vec![sheet::ADD, register, other]
}

pub fn read(register: u8, word: u8) -> Bytes {
    vec![sheet::READ, register, word]
}

pub fn pair(word: u8, old: u8, new: u8) -> Bytes {
    vec![sheet::PAIR, word, old, new]
}

pub fn swap(register: u8) -> Bytes {
    vec![sheet::SWAP, register]
}

pub fn begin() -> Bytes {
    vec![sheet::BEGIN]
}

pub fn get(register: u8, block: u8, offset: u8) -> Bytes {
    vec![sheet::GET, register, block, offset]
}

pub fn put(block: u8, offset: u8, register: u8) -> Bytes {
    vec![sheet::PUT, block, offset, register]
}

pub fn commit() -> Bytes {
    vec![sheet::COMMIT]
}
