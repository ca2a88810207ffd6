//! Lists of commands for the builder: those of a sheet, and such with faulty ones put in between.

use crate::builder::{widths, Call, OPERANDS};
use crate::contention::{self, Style};
use crate::random::Random;
use crate::{damage, sheet, write};

/// The commands of a sheet, good or not, as far as they can be handed over: up to a byte that names
/// none, up to one that is cut, or up to the byte after END. The last one's operands are not looked at.
pub fn of_sheet(bytes: &[u8]) -> Vec<Call> {
    let mut calls: Vec<Call> = Vec::new();
    let mut rest = bytes;
    while let Some((&command, operands)) = rest.split_first() {
        let ended = calls.last().is_some_and(|call| call.command == sheet::END);
        let Some(widths) = widths(command).filter(|_| !ended) else {
            calls.push(Call::new(command, &[]));
            break;
        };
        let length = widths.iter().sum();
        let Some((mut operands, after)) = operands.split_at_checked(length) else { break };
        let mut numbers = Vec::new();
        for &width in widths {
            let (bytes, others) = operands.split_at(width);
            numbers.push(bytes.iter().fold(0, |number, &byte| number << 8 | u32::from(byte)));
            operands = others;
        }
        calls.push(Call::new(command, &numbers));
        rest = after;
    }
    calls
}

/// A list in which many commands are refused: a sheet's own, with others among them and after END. What a
/// command does not look at is filled by chance.
pub fn with_faults(random: &mut Random) -> Vec<Call> {
    let mut base = of_sheet(&base_sheet(random));
    if base.is_empty() {
        base.push(Call::new(sheet::TASK, &[]));
    }
    let chance = random.pick(&[2, 10, 30, 60]);
    let mut calls = Vec::new();
    for call in &base {
        while random.percent(chance) {
            calls.push(faulty(random, &base, call));
        }
        calls.push(*call);
    }
    for _ in 0..random.below(4) {
        calls.push(faulty(random, &base, &Call::new(sheet::END, &[])));
    }
    for call in &mut calls {
        let own = call.own_operands().len();
        call.operands[own..].fill(random.next_number() as u32);
    }
    calls
}

fn base_sheet(random: &mut Random) -> Vec<u8> {
    let style = random.pick(&Style::SHORT);
    match random.below(8) {
        0 => one_of(random, damage::at_ceilings(0)),
        1 => one_of(random, damage::at_ceilings(1)),
        2 => one_of(random, damage::two_faults()),
        3 => damage::altered_commands(random),
        4 => damage::altered_bytes(random),
        _ => write::sheet(&contention::commands(random, style)),
    }
}

fn one_of(random: &mut Random, mut sheets: Vec<Vec<u8>>) -> Vec<u8> {
    sheets.swap_remove(random.below(sheets.len()))
}

/// Every command with one operand at the edges of ranges and widths and the others small, and a byte
/// that names no command.
pub fn at_edges() -> Vec<Call> {
    let mut calls = vec![Call::new(0x06, &[])];
    for command in NAMED {
        calls.push(Call::new(command, &[]));
        for operand in 0..Call::new(command, &[]).own_operands().len() {
            for (edge, others) in EDGES.into_iter().flat_map(|edge| [(edge, 0), (edge, 7)]) {
                let mut call = Call::new(command, &[others; OPERANDS]);
                call.operands[operand] = edge;
                calls.push(call);
            }
        }
    }
    calls
}

const EDGES: [u32; 22] = [
    0, 1, 3, 4, 7, 8, 9, 15, 16, 31, 32, 255, 256, 263, 264, 65_535, 65_536, 65_543, 16_777_215,
    16_777_216, 16_777_223, 0xFFFFFFFF,
];

/// A command that is mostly refused where `next` stands.
fn faulty(random: &mut Random, base: &[Call], next: &Call) -> Call {
    let other = base[random.below(base.len())];
    let operands = std::array::from_fn(|_| random.below(9) as u32);
    let small = Call { command: random.pick(&NAMED), operands };
    match random.below(8) {
        0..=2 => altered(random, next),
        3 => altered(random, &other),
        4 => other,
        5 => altered(random, &small),
        6 => small,
        _ => Call::new(random.next_number() as u8, &[]),
    }
}

const NAMED: [u8; 14] = [1, 2, 3, 4, 5, 0x10, 0x11, 0x12, 0x13, 0x14, 0x20, 0x21, 0x22, 0x23];

/// One operand becomes another: at the edge of a range, or too wide with the same low bytes.
fn altered(random: &mut Random, call: &Call) -> Call {
    let mut call = *call;
    let own = call.own_operands().len();
    if own > 0 {
        let operand = &mut call.operands[random.below(own)];
        *operand = match random.below(5) {
            0 => operand.wrapping_add(256),
            1 => operand.wrapping_add(65_536),
            2 => operand.wrapping_sub(1),
            3 => random.next_number() as u32,
            _ => random.pick(&EDGES),
        };
    }
    call
}
