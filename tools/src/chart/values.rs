//! Where the texts of a row of changes stand: beside their marks, none over another, no value left out.

use super::svg::{text_width, TEXT_SIZE};
use crate::recording::series::Change;

/// From the middle of a mark to its text, on either side.
const BESIDE_MARK: f32 = 6.0;
/// From one text to the next.
const BETWEEN_TEXTS: f32 = 6.0;
/// What stands between the parts of a change's text.
const COMMA: &str = ", ";

#[derive(Clone, Copy, Debug, PartialEq, Eq)]
pub enum Side {
    Left,
    Right,
}

/// A change with its text in lines, from `from` to `to` at most.
#[derive(Clone, Debug)]
pub struct Placed<'a> {
    pub change: &'a Change,
    /// The middle of the mark.
    pub mark: f32,
    pub side: Side,
    pub from: f32,
    pub to: f32,
    pub lines: Vec<String>,
}

/// Places the changes of one word or block, each with the middle of its mark, between the two edges.
pub fn place<'a>(marks: &[(f32, &'a Change)], left: f32, right: f32) -> Vec<Placed<'a>> {
    let mut free = left;
    let mut found = Vec::new();
    for (index, &(mark, change)) in marks.iter().enumerate() {
        let to = marks.get(index + 1).map_or(right, |next| next.0 - BESIDE_MARK);
        let right_room = (mark + BESIDE_MARK, to);
        let left_room = (free, mark - BESIDE_MARK);
        let placed = placed(mark, change, left_room, right_room);
        free = match placed.side {
            Side::Left => mark + BESIDE_MARK,
            Side::Right => placed.to + BETWEEN_TEXTS,
        };
        found.push(placed);
    }
    found
}

/// Right of the mark in one line, or left of it, or in several lines where there is more room.
fn placed<'a>(mark: f32, change: &'a Change, left: (f32, f32), right: (f32, f32)) -> Placed<'a> {
    let needed = text_width(&change.full, TEXT_SIZE);
    let [left_width, right_width] = [left, right].map(|(from, to)| to - from);
    let is_right = needed <= right_width || (needed > left_width && right_width >= left_width);
    let (side, (from, to)) = if is_right { (Side::Right, right) } else { (Side::Left, left) };
    let lines = lines(&change.full, to - from);
    let widest = lines.iter().map(|line| text_width(line, TEXT_SIZE)).fold(0.0, f32::max);
    let width = widest.min(to - from);
    let (from, to) = match side {
        Side::Right => (from, from + width),
        Side::Left => (to - width, to),
    };
    Placed { change, mark, side, from, to, lines }
}

/// The text broken at its commas, so that no line is wider than the room if it has a comma to break at.
fn lines(text: &str, room: f32) -> Vec<String> {
    let mut lines: Vec<String> = Vec::new();
    for part in text.split_inclusive(COMMA) {
        let fits =
            |line: &String| text_width(format!("{line}{part}").trim_end(), TEXT_SIZE) <= room;
        match lines.last_mut() {
            Some(line) if fits(line) => line.push_str(part),
            _ => lines.push(part.to_string()),
        }
    }
    lines.iter().map(|line| line.trim_end().to_string()).collect()
}
