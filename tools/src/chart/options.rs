//! What the caller may choose about the picture, and which choices are refused.

use std::fmt;

use simulator::sheet::{Fault, Sheet};
use simulator::TOP_LIMIT;

use crate::names::Names;
use crate::source::Source;

/// Chromium opens a picture of this many ticks in two seconds, one of 10,000 in ten, and one of 65,000 not at all.
pub const MOST_TICKS: u32 = 5000;
/// And a band of this many in two seconds, one of 5,000 in fifteen.
pub const MOST_IN_BAND: usize = 2000;

#[derive(Clone, Debug)]
pub struct Options {
    pub title: String,
    /// The first and the last tick shown, as far as the run comes.
    pub first: u32,
    pub last: u32,
    /// How many ticks stand side by side.
    pub ticks_in_band: usize,
    pub names: Names,
    /// The limit of ticks of the run.
    pub limit: u32,
    pub source: Source,
}

impl Default for Options {
    fn default() -> Options {
        Options {
            title: "A run, one statement a tick".to_string(),
            first: 0,
            last: 299,
            ticks_in_band: 60,
            names: Names::default(),
            limit: TOP_LIMIT as u32,
            source: Source::SecondSimulatorAlone,
        }
    }
}

/// Why nothing is drawn.
#[derive(Clone, Debug, PartialEq, Eq)]
pub enum Refused {
    /// The check turns down the sheet, or the run its limit.
    Sheet(Fault),
    /// The reason, in the words of the program's options.
    Options(String),
}

impl fmt::Display for Refused {
    fn fmt(&self, formatter: &mut fmt::Formatter<'_>) -> fmt::Result {
        match self {
            Refused::Sheet(fault) => write!(formatter, "X {} {}", fault.number, fault.place),
            Refused::Options(reason) => formatter.write_str(reason),
        }
    }
}

impl From<Fault> for Refused {
    fn from(fault: Fault) -> Refused {
        Refused::Sheet(fault)
    }
}

impl Options {
    /// What can be judged before the run.
    pub fn check(&self, sheet: &Sheet) -> Result<(), Refused> {
        let Options { first, last, ticks_in_band, limit, .. } = *self;
        if u64::from(limit) > TOP_LIMIT {
            return Err(Refused::Sheet(Fault { number: 9, place: 0 }));
        }
        let reason = if ticks_in_band == 0 {
            "--band 0: a band has at least one tick".to_string()
        } else if ticks_in_band > MOST_IN_BAND {
            format!(
                "--band {ticks_in_band} is too wide for one picture: at most {MOST_IN_BAND}; \
                 --html shows a run of any length in one band"
            )
        } else if last < first {
            format!("--last {last} comes before --first {first}")
        } else {
            let (words, blocks, tasks) =
                (sheet.words.len(), sheet.blocks.len(), sheet.bodies.len());
            return self.names.check(words, blocks, tasks).map_err(Refused::Options);
        };
        Err(Refused::Options(reason))
    }

    /// What can be judged only once the run's length is known.
    pub fn check_range(&self, run_ticks: u32) -> Result<(), Refused> {
        let Options { first, last, .. } = *self;
        // A run without a tick is drawn as such.
        if first > 0 && first >= run_ticks {
            return Err(Refused::Options(beyond(first, run_ticks)));
        }
        let shown = run_ticks.min(last.saturating_add(1)) - first;
        if shown > MOST_TICKS {
            return Err(Refused::Options(format!(
                "{shown} ticks are too many for one picture: at most {MOST_TICKS}; \
                 choose fewer with --first and --last, or --html, which shows a run of any length"
            )));
        }
        Ok(())
    }
}

fn beyond(first: u32, run_ticks: u32) -> String {
    let run = match run_ticks {
        0 => "no ticks".to_string(),
        1 => "1 tick, number 0".to_string(),
        _ => format!("{run_ticks} ticks, 0 to {}", run_ticks - 1),
    };
    format!("--first {first} lies beyond the run: it has {run}")
}
