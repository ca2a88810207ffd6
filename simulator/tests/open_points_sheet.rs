//! Hand-worked sheets for the readings of document 01 that concern the sheet.

mod common;

use common::refusal;
use simulator::write::*;
use simulator::{check, damage};

/// The commands before are good; the next one is turned down with this number, at its place.
fn assert_fault(before: &[Bytes], command: Bytes, number: u8) {
    assert_fault_after(&sheet(before), command, number);
}

fn assert_fault_after(before: &[u8], command: Bytes, number: u8) {
    let place = before.len();
    let bytes = sheet(&[before.to_vec(), command]);
    assert_eq!(check(&bytes), refusal(number, place), "{bytes:02x?}");
}

fn assert_good(commands: &[Bytes]) {
    assert_eq!(check(&sheet(commands)), refusal(0, 0));
}

fn small_task() -> Bytes {
    sheet(&[task(), add(0, 0)])
}

fn nine_words() -> Bytes {
    word(7).repeat(9)
}

fn nine_blocks() -> Bytes {
    block(1, [3; 8]).repeat(9)
}

fn eight_pairs() -> Bytes {
    (0..8).flat_map(|word| pair(word, 0, 1)).collect()
}

fn eight_gets() -> Bytes {
    (0..8).flat_map(|block| get(0, block, 0)).collect()
}

fn four_puts() -> Bytes {
    (0..4).flat_map(|block| put(block, 0, 0)).collect()
}

fn all_releases() -> Bytes {
    (0..256).flat_map(|tick| release(tick, 0)).collect()
}

/// At one command the lowest number wins: 2 before 4, 4 before 5 and 6, 5 before 6, 7 and 8.
#[test]
fn the_lowest_number_wins() {
    let full = add(0, 0).repeat(512);
    assert_fault(&[], vec![0x10], 2);
    assert_fault(&[task()], vec![0x11, 8], 2);
    assert_fault(&[word(7).repeat(32)], vec![0x01, 0], 2);
    assert_fault(&[word(7).repeat(32), small_task()], word(7), 4);
    assert_fault(&[task(), full.clone()], swap(0), 4);
    assert_fault(&[], load(8, 0), 4);
    assert_fault(&[task()], get(0, 3, 0), 4);
    assert_fault(&[small_task(), all_releases()], release(9999, 5), 5);
    assert_fault(&[task(), full], add(8, 0), 5);
    assert_fault(&[block(0, [0; 8]).repeat(16)], block(16_777_216, [0; 8]), 5);
    assert_fault(&[small_task(), release(5, 0)], release(4, 1), 6);
}

/// Different blocks are counted by their operand bytes, declared or not.
#[test]
fn blocks_of_a_transaction() {
    let opened = sheet(&[nine_blocks(), task(), begin()]);
    assert_fault(&[opened.clone(), eight_gets()], get(0, 8, 0), 5);
    assert_fault(&[opened.clone(), eight_gets()], get(0, 200, 0), 5);
    assert_fault(&[opened.clone(), eight_gets()], put(8, 0, 0), 5);
    assert_fault(&[opened.clone(), four_puts()], put(4, 8, 0), 5);
    assert_fault(&[opened.clone(), four_puts()], get(0, 9, 0), 6);
    // GET and PUT of one block are one block, and the next BEGIN counts anew.
    let first = sheet(&[eight_gets(), four_puts(), commit()]);
    let next = sheet(&[begin(), get(0, 8, 0), put(7, 0, 0), commit()]);
    assert_good(&[opened, first, next, end()]);
}

/// A ninth PAIR is 5, also if it repeats a word; a repeated word with a bad register is 6.
#[test]
fn waiting_pairs() {
    assert_fault(&[nine_words(), task(), eight_pairs()], pair(8, 0, 0), 5);
    assert_fault(&[nine_words(), task(), eight_pairs()], pair(0, 0, 0), 5);
    assert_fault(&[nine_words(), task(), pair(0, 0, 0)], pair(0, 8, 0), 6);
    assert_fault(&[nine_words(), task(), pair(0, 0, 0)], pair(0, 0, 0), 7);
    // SWAP ends the waiting; READ, LOAD and ADD may come between.
    let first = sheet(&[eight_pairs(), read(0, 0), load(0, 1), add(0, 0), swap(0)]);
    assert_good(&[nine_words(), task(), first, pair(0, 0, 0), swap(0), end()]);
}

/// A body may not end empty, with PAIRs waiting or before COMMIT: 4 at the next section's command.
#[test]
fn the_end_of_a_body() {
    let waiting = sheet(&[word(7), task(), pair(0, 0, 0)]);
    let open = sheet(&[block(1, [3; 8]), task(), begin()]);
    for next in [task(), release(0, 0), end()] {
        assert_fault_after(&task(), next.clone(), 4);
        assert_fault_after(&waiting, next.clone(), 4);
        assert_fault_after(&open, next, 4);
    }
    assert_fault_after(&waiting, begin(), 4);
    assert_fault_after(&open, begin(), 4);
    assert_fault_after(&task(), swap(0), 4);
    // The input ending there is 2 at the length.
    for unfinished in [task(), waiting, open] {
        assert_fault_after(&unfinished, vec![], 2);
    }
}

/// 512 counts the commands of all bodies together, TASK not.
#[test]
fn body_commands() {
    let bodies = sheet(&[small_task(), task(), add(0, 0).repeat(511)]);
    assert_good(&[bodies.clone(), end()]);
    assert_fault_after(&bodies, add(0, 0), 5);
    assert_fault(&[bodies, task()], add(0, 0), 5);
}

/// A 257th release is 5 though it also falls; equal releases do not rise.
#[test]
fn releases() {
    assert_fault(&[small_task(), all_releases()], release(0, 0), 5);
    assert_fault(&[small_task(), release(5, 0)], release(5, 0), 8);
    assert_fault(&[small_task(), small_task(), release(5, 1)], release(5, 0), 8);
    assert_good(&[small_task(), small_task(), release(5, 0), release(5, 1), end()]);
}

/// Bytes between the named ones are always 1, and 3 is the byte after a good END.
#[test]
fn bytes_that_name_no_command() {
    let named = [1, 2, 3, 4, 5, 0x10, 0x11, 0x12, 0x13, 0x14, 0x20, 0x21, 0x22, 0x23];
    for byte in (0..=255).filter(|byte| !named.contains(byte)) {
        assert_fault(&[], vec![byte], 1);
        assert_fault(&[small_task()], vec![byte], 1);
    }
    assert_fault(&[small_task(), end()], vec![0xFF, 0xFF], 3);
}

#[test]
fn ceilings_may_be_reached_and_not_passed() {
    for sheet in damage::at_ceilings(0) {
        assert_eq!(check(&sheet), refusal(0, 0));
    }
    for sheet in damage::at_ceilings(1) {
        assert_eq!(check(&sheet).number, 5);
    }
}

#[test]
fn two_faults_are_turned_down() {
    for sheet in damage::two_faults() {
        assert_ne!(check(&sheet).number, 0, "{sheet:02x?}");
    }
}
