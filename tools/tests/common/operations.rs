//! The rows of a table of operations, for tests.

use simulator::TOP_LIMIT;
use tools::history::{self, COLUMNS};
use tools::names::Names;
use tools::source::Source;

use crate::tables::csv_rows;

pub const ALL: u32 = TOP_LIMIT as u32;
pub const ALONE: Source = Source::SecondSimulatorAlone;

/// What is told of the exchanges of a row.
pub const EXCHANGE: [&str; 6] =
    ["exchange_ticks", "tried", "differed", "fetched", "marked", "failed"];

/// The rows below the columns' names, without the source, which stands last.
pub fn rows_with(sheet: &[u8], limit: u32, names: &Names) -> Vec<Vec<String>> {
    let mut rows = csv_rows(&history::csv(sheet, limit, names, &ALONE).unwrap());
    assert_eq!(rows.remove(0), COLUMNS);
    for row in &mut rows {
        assert_eq!((row.len(), row.pop().as_deref()), (COLUMNS.len(), Some("NOT PROVED")));
    }
    rows
}

/// Some columns of a row, in one text.
pub fn shown(row: &[String], columns: &[&str]) -> String {
    let place = |name: &&str| COLUMNS.iter().position(|column| column == name).unwrap();
    let fields: Vec<&str> = columns.iter().map(|name| row[place(name)].as_str()).collect();
    fields.join("|")
}
