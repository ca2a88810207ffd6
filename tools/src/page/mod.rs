//! The page of a run: one HTML file with its own data, style and script, for a browser without a network.

pub mod base64;
pub mod data;
mod figures;
mod template;

use simulator::history::run_with_history;
use simulator::sheet::{parse, Fault};
use simulator::TOP_LIMIT;

use crate::names::Names;
use crate::recording::Recording;
use crate::source::Source;

/// What the caller may choose.
#[derive(Clone, Debug)]
pub struct Options {
    pub title: String,
    pub names: Names,
    /// The limit of ticks of the run.
    pub limit: u32,
    pub source: Source,
}

impl Default for Options {
    fn default() -> Options {
        Options {
            title: "A run, one statement a tick".to_string(),
            names: Names::default(),
            limit: TOP_LIMIT as u32,
            source: Source::SecondSimulatorAlone,
        }
    }
}

/// The engine's number for a limit above the highest; the sheet's own faults go before it.
const LIMIT_TOO_HIGH: Fault = Fault { number: 9, place: 0 };

const HTML: &str = include_str!("page.html");
const STYLE: &str = include_str!("page.css");

/// The parts of the script in the order in which they build on each other.
const SCRIPT: [&str; 10] = [
    include_str!("script/run.js"),
    include_str!("script/view.js"),
    include_str!("script/signs.js"),
    include_str!("script/chart.js"),
    include_str!("script/columns.js"),
    include_str!("script/series.js"),
    include_str!("script/overview.js"),
    include_str!("script/details.js"),
    include_str!("script/jumps.js"),
    include_str!("script/controls.js"),
];

/// Writes the page of a sheet's whole run, or hands on the fault that turns the sheet down.
pub fn draw(sheet: &[u8], options: &Options) -> Result<String, Fault> {
    let sheet = parse(sheet)?;
    if u64::from(options.limit) > TOP_LIMIT {
        return Err(LIMIT_TOO_HIGH);
    }
    let recording = Recording::new(&sheet, options.limit, 0, options.limit);
    let script = SCRIPT.concat();
    let (_, history) = run_with_history(&sheet, options.limit);
    let run = data::written(&sheet, &recording, &history, &options.names);
    Ok(template::filled(
        HTML,
        &[
            ("title", template::escaped(&options.title)),
            ("style", STYLE.to_string()),
            ("source", template::escaped(&options.source.sentence())),
            ("figures", template::escaped(&figures::sentence(&recording, options))),
            ("table", figures::table(&recording, &options.names)),
            ("run", run),
            ("script", script),
        ],
    ))
}
