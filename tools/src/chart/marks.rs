//! The small signs of the chart, each drawn once for the rows and for the legend.

use simulator::observer::Fate;

use super::svg::Svg;

/// Half a bar: so short that a commit's circle in the tick before does not touch it.
const BAR: f32 = 2.8;

/// A release at (x, y): an arrow where it starts a job, crossed out where it is dropped. One that
/// waits stops at a bar, and its arrow comes from a bar where it starts at last.
pub fn release(svg: &mut Svg, fate: Fate, x: f32, y: f32) {
    match fate {
        Fate::Starts => arrow(svg, "arrow", x, y),
        Fate::Waits => {
            svg.line("arrow", (x, y - 12.0), (x, y - 4.0));
            svg.line("bar", (x - BAR, y - 3.5), (x + BAR, y - 3.5));
        }
        Fate::StartsAfterWaiting => {
            svg.line("bar", (x - BAR, y - 12.0), (x + BAR, y - 12.0));
            arrow(svg, "arrow", x, y);
        }
        Fate::Dropped => {
            arrow(svg, "dropped", x, y);
            svg.line("cross", (x - BAR, y - 12.0), (x + BAR, y - 3.0));
            svg.line("cross", (x - BAR, y - 3.0), (x + BAR, y - 12.0));
        }
    }
}

/// An arrow that points down at (x, y).
fn arrow(svg: &mut Svg, class: &str, x: f32, y: f32) {
    svg.line(class, (x, y - 12.0), (x, y - 4.0));
    svg.polygon(class, &[(x - 3.0, y - 5.0), (x + 3.0, y - 5.0), (x, y)]);
}

/// A full circle for yes, an open one for no.
pub fn commit(svg: &mut Svg, x: f32, y: f32, answer: bool) {
    svg.circle(if answer { "yes" } else { "no" }, x, y - 6.0, 3.2);
}

/// An arrow back, below the cell whose right edge is at x: the transaction restarts.
pub fn attempt_lost(svg: &mut Svg, x: f32, y: f32) {
    svg.line("back", (x - 8.0, y + 4.5), (x, y + 4.5));
    svg.line("back", (x, y), (x, y + 5.0));
    svg.polygon("back-head", &[(x - 7.0, y + 1.5), (x - 7.0, y + 7.5), (x - 13.0, y + 4.5)]);
}

/// A bar inside the right edge of a cell, so that the next cell does not cover it.
pub fn job_end(svg: &mut Svg, x: f32, y: f32, height: f32) {
    svg.rectangle("job-end", x - 2.6, y, 2.6, height + 3.0);
}

/// A job that is unfinished and does not run.
pub fn preempted(svg: &mut Svg, from: f32, to: f32, y: f32) {
    svg.line("preempted", (from, y), (to, y));
}

/// The current value changes.
pub fn change(svg: &mut Svg, x: f32, y: f32) {
    svg.polygon("change", &[(x, y - 4.0), (x + 4.0, y), (x, y + 4.0), (x - 4.0, y)]);
}
