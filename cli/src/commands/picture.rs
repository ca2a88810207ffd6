//! chart and history: what the run did tick by tick, after both engines gave the same report.

use tools::chart::{self, Refused};
use tools::history;
use tools::names::Names;
use tools::page;
use tools::source::Source;

use crate::arguments::{Given, Limit};
use crate::compared::source_of;
use crate::engine::engine;
use crate::failure::{not_done, Failure};
use crate::sheet::Sheet;
use crate::table::{BAND, CSV, FIRST, HTML, JSON, LAST, TITLE};

/// A sheet whose run may be shown.
struct Shown {
    sheet: Sheet,
    limit: Limit,
    names: Names,
    source: Source,
}

impl Shown {
    fn new(given: &Given) -> Result<Shown, Failure> {
        let limit = given.limit()?;
        let sheet = Sheet::read(given)?;
        let source = source_of(engine(), &sheet.bytes, limit.ticks);
        let source = source.map_err(|stop| sheet.stopped(stop, &limit))?;
        let names = sheet.names_with(given)?;
        Ok(Shown { sheet, limit, names, source })
    }

    /// The limit, which is not above the top: that would have been refused.
    fn ticks(&self) -> u32 {
        self.limit.ticks as u32
    }
}

pub fn chart(given: &Given) -> Result<(), Failure> {
    let options = picture_options(given)?;
    let shown = Shown::new(given)?;
    let title = given.shown(&TITLE).unwrap_or_else(|| shown.sheet.title(given));
    let (limit, names, source) = (shown.ticks(), shown.names, shown.source);
    let bytes = &shown.sheet.bytes;
    let drawn = match given.has(&HTML) {
        true => {
            let options = page::Options { title, names, limit, source };
            page::draw(bytes, &options).map_err(Refused::Sheet)
        }
        false => chart::draw(bytes, &chart::Options { title, names, limit, source, ..options }),
    };
    let drawn = drawn.map_err(|refused| match refused {
        Refused::Sheet(fault) => shown.sheet.refused(fault.into(), &shown.limit),
        Refused::Options(reason) => given.fault(&reason),
    })?;
    shown.sheet.write(given, drawn.as_bytes())
}

/// What the arguments choose about the picture. The page shows everything.
fn picture_options(given: &Given) -> Result<chart::Options, Failure> {
    let mut options = chart::Options::default();
    let (first, last, band) = (given.number(&FIRST)?, given.number(&LAST)?, given.number(&BAND)?);
    options.first = first.unwrap_or(options.first);
    options.last = last.unwrap_or(options.first.saturating_add(options.last));
    options.ticks_in_band = band.map_or(options.ticks_in_band, |band| band as usize);
    let chosen = [&FIRST, &LAST, &BAND].into_iter().find(|choice| given.has(choice));
    match chosen.filter(|_| given.has(&HTML)) {
        None => Ok(options),
        Some(choice) => {
            let reason = "is for the SVG picture; the page has every tick";
            Err(given.fault(&format!("{} {reason}", choice.long)))
        }
    }
}

pub fn history(given: &Given) -> Result<(), Failure> {
    if given.has(&CSV) && given.has(&JSON) {
        return Err(given.fault("--csv and --json exclude each other"));
    }
    let shown = Shown::new(given)?;
    let write = if given.has(&JSON) { history::json } else { history::csv };
    let list = write(&shown.sheet.bytes, shown.ticks(), &shown.names, &shown.source);
    let list = list.map_err(|reason| not_done(format!("{}: {reason}", shown.sheet.label)))?;
    shown.sheet.write(given, list.as_bytes())
}
