//! The preemption chart: a picture of a run as SVG, wrapped into bands of ticks.

mod band;
mod legend;
mod marks;
mod options;
mod style;
mod svg;
mod titles;
mod values;

pub use options::{Options, Refused, MOST_IN_BAND, MOST_TICKS};

use simulator::sheet::parse;

use band::{Band, Shared, CELL_WIDTH, LEFT, RIGHT};
use svg::{text_width, wrapped, Svg};

use crate::names::Names;
use crate::recording::series::{all_series, Series};
use crate::recording::Recording;

/// A shorter run still leaves room for two columns of the legend.
const FEWEST_CELLS: usize = 32;
const BAND_GAP: f32 = 22.0;
const MARGIN: f32 = 4.0;
const TITLE_SIZE: f32 = 13.0;
const TITLE_HEIGHT: f32 = 16.0;
const NOTE_SIZE: f32 = 9.5;
const NOTE_HEIGHT: f32 = 12.0;

/// Draws the run of a sheet, or says why not.
pub fn draw(sheet: &[u8], options: &Options) -> Result<String, Refused> {
    let sheet = parse(sheet)?;
    options.check(&sheet)?;
    let recording = Recording::new(&sheet, options.limit, options.first, options.last);
    options.check_range(recording.run_ticks)?;
    let (changing, unchanged): (Vec<Series>, Vec<Series>) =
        all_series(&recording).into_iter().partition(|series| !series.changes.is_empty());

    let shown = recording.ticks.len();
    let in_band = options.ticks_in_band;
    let cells = in_band.min(shown).max(FEWEST_CELLS);
    let width = LEFT + CELL_WIDTH * cells as f32 + RIGHT;
    let names = &options.names;
    let shared = Shared { recording: &recording, series: &changing, names, width };
    let mut svg = Svg::new();
    let mut top = draw_head(&mut svg, &recording, options, width);
    for start in (0..shown).step_by(in_band) {
        let band = Band::new(&shared, start..shown.min(start + in_band), top);
        band.draw(&mut svg);
        top = band.bottom() + BAND_GAP;
    }
    for line in unchanged_note(&unchanged, names, width - 2.0 * MARGIN) {
        svg.text("note", MARGIN, top, &line);
        top += NOTE_HEIGHT + 2.0;
    }
    let height = legend::draw(&mut svg, top, width) + MARGIN;
    Ok(svg.finish(width, height, &style::style()))
}

/// Title, range and source, each in as many lines as it needs; returns where the first band begins.
fn draw_head(svg: &mut Svg, recording: &Recording, options: &Options, width: f32) -> f32 {
    let room = width - 2.0 * MARGIN;
    let mut y = 2.0;
    // Bold letters are wider than their width says.
    for line in wrapped(&options.title, TITLE_SIZE, room * 0.95) {
        y += TITLE_HEIGHT;
        svg.text("title", MARGIN, y, &line);
    }
    y += MARGIN;
    for note in [range_note(recording), options.source.sentence()] {
        for line in wrapped(&note, NOTE_SIZE, room) {
            y += NOTE_HEIGHT;
            svg.text("note", MARGIN, y, &line);
        }
    }
    y + NOTE_HEIGHT
}

fn range_note(recording: &Recording) -> String {
    let total = recording.run_ticks;
    let range = match recording.ticks.len() as u32 {
        0 => "No ticks".to_string(),
        shown => format!("Ticks {} to {}", recording.first, recording.first + shown - 1),
    };
    format!("{range}; the whole run has {total}. The highest task is on top.")
}

/// The words and blocks that keep their value, in lines no wider than the picture.
fn unchanged_note(unchanged: &[Series], names: &Names, width: f32) -> Vec<String> {
    let mut lines: Vec<String> = Vec::new();
    for series in unchanged {
        let item = format!("{}: {}", names.of(series.subject), series.before(0));
        match lines.last_mut() {
            None => lines.push(format!("Unchanged: {item}")),
            Some(line) if text_width(&format!("{line}, {item}"), NOTE_SIZE) <= width => {
                line.push_str(&format!(", {item}"));
            }
            Some(_) => lines.push(item),
        }
    }
    // One item with a long name may be wider than the picture.
    lines.iter().flat_map(|line| wrapped(line, NOTE_SIZE, width)).collect()
}
