//! The legend: the kinds of statements with their colours, and the signs.

use simulator::observer::Fate;

use super::marks;
use super::svg::Svg;
use crate::recording::signs::SIGNS;
use crate::recording::statement::Kind;

const COLUMN_WIDTH: f32 = 303.0;
const LINE_HEIGHT: f32 = 18.0;
const LEFT: f32 = 4.0;
/// From a sign to its explanation.
const INDENT: f32 = 34.0;

type Sign = fn(&mut Svg, f32, f32);

/// Each sign is drawn around a point; `SIGNS` says what it means.
const DRAWN: [Sign; SIGNS.len()] = [
    |svg, x, y| release(svg, Fate::Starts, x, y),
    |svg, x, y| release(svg, Fate::Waits, x, y),
    |svg, x, y| release(svg, Fate::StartsAfterWaiting, x, y),
    |svg, x, y| release(svg, Fate::Dropped, x, y),
    |svg, x, y| marks::preempted(svg, x - 12.0, x + 12.0, y),
    |svg, x, y| marks::commit(svg, x, y + 6.0, true),
    |svg, x, y| marks::commit(svg, x, y + 6.0, false),
    |svg, x, y| marks::attempt_lost(svg, x + 6.0, y - 4.0),
    |svg, x, y| marks::job_end(svg, x + 1.3, y - 4.0, 8.0),
    marks::change,
];

fn release(svg: &mut Svg, fate: Fate, x: f32, y: f32) {
    marks::release(svg, fate, x, y + 6.0);
}

/// Draws the legend from `top` on in as many columns as fit, and returns its lower edge.
pub fn draw(svg: &mut Svg, top: f32, width: f32) -> f32 {
    let columns = (width / COLUMN_WIDTH) as usize;
    let mut y = top;
    for kinds in Kind::ALL.chunks(columns) {
        for (column, kind) in kinds.iter().enumerate() {
            let x = LEFT + COLUMN_WIDTH * column as f32;
            svg.rectangle(kind.class(), x, y, 24.0, 12.0);
            svg.text("legend", x + INDENT, y + 9.0, kind.explanation());
        }
        y += LINE_HEIGHT;
    }
    let signs: Vec<(&Sign, &str)> = DRAWN.iter().zip(SIGNS).collect();
    for signs in signs.chunks(columns) {
        for (column, (sign, explanation)) in signs.iter().enumerate() {
            let x = LEFT + COLUMN_WIDTH * column as f32;
            sign(svg, x + 12.0, y + 6.0);
            svg.text("legend", x + INDENT, y + 9.0, explanation);
        }
        y += LINE_HEIGHT;
    }
    y
}
