//! One band of the chart: a tick scale, a row for each task and the changes below.

use std::ops::Range;

use simulator::machine::Counts;

use super::svg::{shortened, text_width, Svg, TEXT_SIZE};
use super::values::{place, Placed, Side};
use super::{marks, titles};
use crate::names::Names;
use crate::recording::series::Series;
use crate::recording::statement::{kind, label};
use crate::recording::subject::Subject;
use crate::recording::{Done, Recording, Tick};

pub const LEFT: f32 = 128.0;
/// The room for most values that change in the last tick of a band.
pub const RIGHT: f32 = 64.0;
pub const CELL_WIDTH: f32 = 14.0;
const CELL_HEIGHT: f32 = 48.0;
const SCALE_HEIGHT: f32 = 16.0;
/// The height of a row's middle where its task does not run in the band, and with two lines of text.
const EMPTY_HEIGHT: f32 = 8.0;
const TWO_LINES_HEIGHT: f32 = 14.0;
/// How far a release stands beside one that waited and starts in the same tick.
const BESIDE: f32 = 9.0;
/// The room above the cells for releases and commits, and below them for lost attempts.
const ABOVE: f32 = 15.0;
const BELOW: f32 = 8.0;
const SERIES_HEIGHT: f32 = 14.0;
/// What a further line of values adds.
const VALUE_LINE: f32 = 10.0;

/// What the bands of a picture have in common.
pub struct Shared<'a> {
    pub recording: &'a Recording,
    /// The words and blocks that change.
    pub series: &'a [Series],
    pub names: &'a Names,
    /// The width of the picture.
    pub width: f32,
}

/// Some ticks of the recording, to be drawn from `top` on.
pub struct Band<'a> {
    shared: &'a Shared<'a>,
    recording: &'a Recording,
    ticks: Range<usize>,
    top: f32,
    /// For each of the series, its changes in this band.
    placed: Vec<Vec<Placed<'a>>>,
}

impl<'a> Band<'a> {
    pub fn new(shared: &'a Shared<'a>, ticks: Range<usize>, top: f32) -> Band<'a> {
        let placed = Vec::new();
        let mut band = Band { shared, recording: shared.recording, ticks, top, placed };
        band.placed = shared.series.iter().map(|series| band.place(series)).collect();
        band
    }

    fn place(&self, series: &'a Series) -> Vec<Placed<'a>> {
        let shown = series.changes.iter().filter(|change| self.ticks.contains(&change.tick));
        let marks: Vec<_> = shown.map(|change| (self.middle(change.tick), change)).collect();
        place(&marks, LEFT, self.shared.width - 2.0)
    }

    pub fn draw(&self, svg: &mut Svg) {
        self.draw_scale(svg);
        self.draw_idle(svg);
        for task in 0..self.recording.tasks {
            self.draw_row(svg, task);
        }
        for (index, series) in self.shared.series.iter().enumerate() {
            let y = self.series_top(index) + SERIES_HEIGHT * 0.6;
            self.draw_series(svg, series, &self.placed[index], y);
        }
    }

    pub fn bottom(&self) -> f32 {
        self.series_top(self.placed.len())
    }

    /// The upper edge of a series: those above it are as high as the lines of their values need.
    fn series_top(&self, index: usize) -> f32 {
        let lines =
            |placed: &Vec<Placed>| placed.iter().map(|one| one.lines.len()).max().unwrap_or(1);
        let height = |placed| SERIES_HEIGHT + VALUE_LINE * (lines(placed) - 1) as f32;
        self.rows_end() + self.placed[..index].iter().map(height).sum::<f32>()
    }

    fn rows_start(&self) -> f32 {
        self.top + SCALE_HEIGHT
    }

    fn rows_end(&self) -> f32 {
        self.cells_top(0) + self.cells_height(0) + BELOW
    }

    /// The left edge of a recorded tick's cell.
    fn x(&self, tick: usize) -> f32 {
        LEFT + CELL_WIDTH * (tick - self.ticks.start) as f32
    }

    /// The run's number of a recorded tick, and those of several.
    fn number(&self, tick: usize) -> u32 {
        self.recording.first + tick as u32
    }

    fn numbers(&self, ticks: &Range<usize>) -> Range<u32> {
        self.number(ticks.start)..self.number(ticks.end)
    }

    fn middle(&self, tick: usize) -> f32 {
        self.x(tick) + CELL_WIDTH / 2.0
    }

    /// The upper edge of a task's cells: the highest task is on top.
    fn cells_top(&self, task: usize) -> f32 {
        let higher = task + 1..self.recording.tasks;
        let rows: f32 = higher.map(|other| ABOVE + self.cells_height(other) + BELOW).sum();
        self.rows_start() + rows + ABOVE
    }

    fn cells_height(&self, task: usize) -> f32 {
        let runs = |done: &Done| done.task == task;
        if self.recorded().any(|(_, tick)| tick.done.as_ref().is_some_and(runs)) {
            CELL_HEIGHT
        } else if self.totals(task).is_some() {
            TWO_LINES_HEIGHT
        } else {
            EMPTY_HEIGHT
        }
    }

    /// How many attempts and releases of the task are lost and dropped in the whole run, if any.
    fn totals(&self, task: usize) -> Option<String> {
        let Counts { lost, dropped, .. } = self.recording.counts[task];
        match (lost, dropped) {
            (0, 0) => None,
            (_, 0) => Some(format!("lost {lost} in all")),
            (0, _) => Some(format!("dropped {dropped} in all")),
            _ => Some(format!("lost {lost}, dropped {dropped} in all")),
        }
    }

    fn recorded(&self) -> impl Iterator<Item = (usize, &Tick)> {
        self.ticks.clone().map(|tick| (tick, &self.recording.ticks[tick]))
    }

    fn draw_scale(&self, svg: &mut Svg) {
        svg.text("margin", 4.0, self.top + 10.0, "tick");
        for tick in self.ticks.clone() {
            let number = self.number(tick);
            if number.is_multiple_of(5) {
                svg.text("number", self.middle(tick), self.top + 10.0, &number.to_string());
            }
            if number.is_multiple_of(10) {
                let x = self.x(tick);
                svg.line("grid", (x, self.top + 13.0), (x, self.bottom()));
            }
        }
    }

    fn draw_idle(&self, svg: &mut Svg) {
        let height = self.rows_end() - self.rows_start();
        let is_idle = |tick: usize| self.recording.ticks[tick].done.is_none();
        for run in runs(self.ticks.clone(), is_idle) {
            let width = CELL_WIDTH * run.len() as f32;
            let x = self.x(run.start);
            svg.titled(&titles::idle(self.numbers(&run)), |svg| {
                svg.rectangle("idle", x, self.rows_start(), width, height);
                self.draw_idle_text(svg, x + width / 2.0, run.len());
            });
        }
    }

    /// At the upper edge, where no other row's line crosses it.
    fn draw_idle_text(&self, svg: &mut Svg, middle: f32, ticks: usize) {
        let room = CELL_WIDTH * ticks as f32;
        let whole = format!("{ticks} idle");
        let text = if text_width(&whole, TEXT_SIZE) <= room { whole.as_str() } else { "idle" };
        svg.fitted_text("idle-text", middle, self.rows_start() + 9.0, room, text);
    }

    fn draw_row(&self, svg: &mut Svg, task: usize) {
        let top = self.cells_top(task);
        let bottom = top + self.cells_height(task) + BELOW;
        let middle = top + self.cells_height(task) / 2.0;
        svg.line("row-line", (0.0, bottom), (self.x(self.ticks.end), bottom));
        self.draw_name(svg, task, middle);
        let name = self.shared.names.of(Subject::Task(task));
        let preempted = |tick: usize| self.recording.ticks[tick].preempted.contains(&task);
        for run in runs(self.ticks.clone(), preempted) {
            svg.titled(&titles::preempted(self.numbers(&run), &name), |svg| {
                let (from, to) = (self.x(run.start), self.x(run.end));
                svg.rectangle("hit", from, middle - BESIDE / 2.0, to - from, BESIDE);
                marks::preempted(svg, from, to, middle);
            });
        }
        for (tick, recorded) in self.recorded() {
            if let Some(done) = recorded.done.as_ref().filter(|done| done.task == task) {
                self.draw_cell(svg, tick, done);
            }
            let releases = recorded.releases.iter().filter(|release| release.0 == task);
            // One may arrive where one that waited starts: then they stand side by side.
            for (number, (_, fate)) in releases.enumerate() {
                let x = self.x(tick) + BESIDE * number as f32;
                svg.titled(&titles::release(self.number(tick), &name, *fate), |svg| {
                    svg.rectangle("hit", x - BESIDE / 2.0, top - ABOVE, BESIDE, ABOVE);
                    marks::release(svg, *fate, x, top - 1.0);
                });
            }
        }
    }

    /// The task's name, and its totals below it.
    fn draw_name(&self, svg: &mut Svg, task: usize, middle: f32) {
        // The name is in bold, so it takes more room than its width says.
        let name = shortened(&self.shared.names.of(Subject::Task(task)), LEFT - 24.0);
        match self.totals(task) {
            None => svg.text("task", 4.0, middle + 3.0, &name),
            Some(totals) => {
                svg.text("task", 4.0, middle - 2.0, &name);
                svg.fitted_text("margin", 4.0, middle + 8.0, LEFT - 8.0, &totals);
            }
        }
    }

    fn draw_cell(&self, svg: &mut Svg, tick: usize, done: &Done) {
        let title = titles::cell(self.number(tick), self.shared.names, done);
        svg.titled(&title, |svg| self.draw_statement(svg, tick, done));
    }

    fn draw_statement(&self, svg: &mut Svg, tick: usize, done: &Done) {
        let (x, top) = (self.x(tick), self.cells_top(done.task));
        let kind = kind(done.statement);
        // A little smaller than the cell, so that neighbours do not cover its outline.
        svg.rectangle(kind.class(), x + 0.5, top, CELL_WIDTH - 1.0, CELL_HEIGHT);
        let text = match done.subject {
            Some(subject) => format!("{} {subject}", label(done.statement)),
            None => label(done.statement).to_string(),
        };
        let class = if kind.is_dark() { "light-word" } else { "dark-word" };
        let room = CELL_HEIGHT - 4.0;
        svg.upward_text(class, x + 10.0, top + CELL_HEIGHT - 2.5, room, &text);
        if let Some(answer) = done.commit {
            marks::commit(svg, self.middle(tick), top - 1.0, answer);
        }
        if done.lost.is_some() {
            marks::attempt_lost(svg, x + CELL_WIDTH, top + CELL_HEIGHT);
        }
        if done.ends_job {
            marks::job_end(svg, x + CELL_WIDTH, top, CELL_HEIGHT);
        }
    }

    fn draw_series(&self, svg: &mut Svg, series: &Series, placed: &[Placed], y: f32) {
        let (recording, names, subject) = (self.recording, self.shared.names, series.subject);
        svg.titled(&titles::before(recording, names, subject, self.ticks.start), |svg| {
            let value = series.before(self.ticks.start);
            let room = LEFT - 16.0 - text_width(value, TEXT_SIZE);
            svg.text("margin", 4.0, y + 3.0, &shortened(&names.of(subject), room));
            svg.fitted_text("value-before", LEFT - 6.0, y + 3.0, LEFT, value);
        });
        svg.line("level", (LEFT, y), (self.x(self.ticks.end), y));
        for one in placed {
            let title = titles::change(recording, names, subject, one.change.tick);
            svg.titled(&title, |svg| draw_change(svg, one, y));
        }
    }
}

/// The mark, and the lines of its text beside it.
fn draw_change(svg: &mut Svg, placed: &Placed, y: f32) {
    marks::change(svg, placed.mark, y);
    let room = placed.to - placed.from;
    let height = VALUE_LINE * placed.lines.len() as f32;
    svg.rectangle("paper", placed.from - 1.0, y - 5.0, room + 1.0, height);
    let (class, x) = match placed.side {
        Side::Right => ("value", placed.from),
        Side::Left => ("value-before", placed.to),
    };
    for (number, line) in placed.lines.iter().enumerate() {
        svg.fitted_text(class, x, y + 3.0 + VALUE_LINE * number as f32, room, line);
    }
}

/// The longest runs of ticks for which the test holds.
fn runs(ticks: Range<usize>, test: impl Fn(usize) -> bool) -> Vec<Range<usize>> {
    let mut found: Vec<Range<usize>> = Vec::new();
    for tick in ticks.filter(|tick| test(*tick)) {
        match found.last_mut() {
            Some(run) if run.end == tick => run.end = tick + 1,
            _ => found.push(tick..tick + 1),
        }
    }
    found
}
