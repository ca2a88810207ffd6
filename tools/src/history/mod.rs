//! The operations of a run as a table: READs, SWAPs and transactions, with their place in the order of whole operations.
//!
//! Nothing is written unless the history replays on the plain machine of 'Demand 3 in full', and each exchange that
//! ended took the ticks that change 7 of document 02 says.

mod csv;
mod exact_ticks;
mod json;
mod rows;
mod ticks;

use simulator::plain::whole_operations;
use simulator::sheet::parse;
use simulator::TOP_LIMIT;

use crate::names::Names;
use crate::source::Source;
use rows::Table;

pub use csv::COLUMNS;

/// A line for each operation below a line with the columns' names, as RFC 4180 has it, but for LF instead of CRLF:
/// every reader takes LF, and line tools would keep a CR as part of the last field.
pub fn csv(sheet: &[u8], limit: u32, names: &Names, source: &Source) -> Result<String, String> {
    held(sheet, limit, names).map(|table| csv::write(&table, source))
}

/// One object; what is empty in the CSV is null.
pub fn json(sheet: &[u8], limit: u32, names: &Names, source: &Source) -> Result<String, String> {
    held(sheet, limit, names).map(|table| json::write(&table, source))
}

/// The table of the run, after its history has been done again on the plain machine and its exchanges' ticks are held
/// to their sum.
fn held<'a>(sheet: &[u8], limit: u32, names: &'a Names) -> Result<Table<'a>, String> {
    let refused = |number, place| format!("refused: X {number} {place}");
    let parsed = parse(sheet).map_err(|fault| refused(fault.number, fault.place))?;
    if u64::from(limit) > TOP_LIMIT {
        return Err(refused(9, 0));
    }
    names.check(parsed.words.len(), parsed.blocks.len(), parsed.bodies.len())?;
    whole_operations(sheet, limit.into())
        .map_err(|fault| format!("the history does not replay on the plain machine: {fault}"))?;
    let table = Table::new(&parsed, limit, names);
    exact_ticks::hold(&table)?;
    Ok(table)
}
