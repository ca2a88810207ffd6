//! Transactions over many blocks: from one to as many as may be touched, at both ends of the block
//! numbers and between, in any order.

use crate::contention::READINGS;
use crate::random::Random;
use crate::sheet::{MAX_PUT, MAX_TOUCHED};
use crate::write::*;

/// How many of the declared blocks it touches, if there are as many.
const TOUCHED: [usize; 8] = [1, 1, 2, 3, 5, MAX_TOUCHED, MAX_TOUCHED, MAX_TOUCHED];

/// BEGIN to COMMIT; each of its blocks is touched once, and a few once more.
pub fn transaction(random: &mut Random, declared: usize) -> Vec<Bytes> {
    let touched = touched_blocks(random, declared);
    let may_put = match random.percent(20) {
        true => Vec::new(),
        false => put_blocks(random, &touched),
    };
    let mut piece = vec![begin()];
    for &block in &touched {
        piece.push(command(random, block, &may_put));
        if random.percent(10) {
            piece.push(command(random, block, &may_put));
        }
        if random.percent(10) {
            piece.push(add(random.pick(&READINGS), 1));
        }
    }
    piece.push(commit());
    piece
}

/// In the order in which they are touched: often by chance, else rising or falling.
fn touched_blocks(random: &mut Random, declared: usize) -> Vec<u8> {
    let count = random.pick(&TOUCHED).min(declared);
    let mut blocks = random.different(count, declared);
    let end = random.pick(&[0, declared as u8 - 1]);
    if random.percent(50) && !blocks.contains(&end) {
        blocks[0] = end;
    }
    match random.below(6) {
        0 => blocks.sort_unstable(),
        1 => blocks.sort_unstable_by(|one, other| other.cmp(one)),
        _ => {}
    }
    blocks
}

/// Not only those that are touched first.
fn put_blocks(random: &mut Random, touched: &[u8]) -> Vec<u8> {
    let count = random.within(1, MAX_PUT).min(touched.len());
    let places = random.different(count, touched.len());
    places.into_iter().map(|place| touched[usize::from(place)]).collect()
}

/// A block that may be PUT is PUT mostly, so that a GET may come before its PUT.
fn command(random: &mut Random, block: u8, may_put: &[u8]) -> Bytes {
    let offset = random.below(3) as u8;
    let register = random.pick(&READINGS);
    if may_put.contains(&block) && random.percent(80) {
        put(block, offset, register)
    } else {
        get(register, block, offset)
    }
}
