//! The table of operations as CSV.

use simulator::history::Exchange;
use simulator::sheet::Command;

use super::rows::{cause, Arguments, Row, Table};
use crate::recording::subject::Subject;
use crate::source::Source;

/// The columns' names, from left to right.
pub const COLUMNS: [&str; 21] = [
    "number",
    "task",
    "task_name",
    "operation",
    "first_tick",
    "last_tick",
    "own_ticks",
    "arguments",
    "answers",
    "outcome",
    "lost_attempts",
    "commit_tick",
    "order",
    "order_tick",
    "exchange_ticks",
    "tried",
    "differed",
    "fetched",
    "marked",
    "failed",
    "source",
];

/// What stands between several arguments, answers, attempts or exchanges in one field.
const BETWEEN: &str = "; ";

pub fn write(table: &Table, source: &Source) -> String {
    let mut text = line(COLUMNS.map(str::to_string));
    for (number, row) in table.rows.iter().enumerate() {
        text += &line(fields(table, number, row, source));
    }
    text
}

fn fields(table: &Table, number: usize, row: &Row, source: &Source) -> [String; 21] {
    let name = table.names.name(Subject::Task(row.task)).unwrap_or_default();
    let exchanges = |number: fn(&Exchange) -> u32| {
        joined(row.exchanges.iter().map(|exchange| number(exchange).to_string()))
    };
    [
        number.to_string(),
        row.task.to_string(),
        name.to_string(),
        row.arguments.operation().to_string(),
        row.first_tick.to_string(),
        optional(row.last_tick),
        row.own_ticks.to_string(),
        arguments(table, &row.arguments),
        joined(row.answers.iter().map(u32::to_string)),
        row.outcome.to_string(),
        joined(row.lost.iter().map(|lost| format!("{} {}", lost.tick, cause(lost)))),
        optional(row.commit_tick),
        optional(row.order.map(|place| place.number)),
        optional(row.order.map(|place| place.tick)),
        exchanges(|exchange| exchange.span.own_ticks()),
        exchanges(|exchange| exchange.tally.tried),
        exchanges(|exchange| exchange.tally.differed),
        exchanges(|exchange| exchange.tally.fetched),
        exchanges(|exchange| exchange.tally.marked),
        exchanges(|exchange| exchange.tally.failed),
        short(source),
    ]
}

/// A line of a table travels without its head, so each says where it comes from.
fn short(source: &Source) -> String {
    match source {
        Source::Compared { version } => format!("compared with hizgrael {version}"),
        Source::SecondSimulatorAlone => "NOT PROVED".to_string(),
    }
}

fn optional<T: ToString>(value: Option<T>) -> String {
    value.map(|value| value.to_string()).unwrap_or_default()
}

fn joined(parts: impl Iterator<Item = String>) -> String {
    parts.collect::<Vec<String>>().join(BETWEEN)
}

fn arguments(table: &Table, arguments: &Arguments) -> String {
    let word = |word: u8| table.names.of(Subject::Word(word.into()));
    match arguments {
        Arguments::Read { word: number } => word(*number),
        Arguments::Swap { pairs } => joined(
            pairs.iter().map(|pair| format!("{}: {} -> {}", word(pair.word), pair.old, pair.new)),
        ),
        Arguments::Transaction { registers, commands } => {
            let registers = registers.map(|value| value.to_string()).join(" ");
            let commands = commands.iter().map(|command| written(table, command));
            joined(std::iter::once(format!("registers {registers}")).chain(commands))
        }
    }
}

/// A command of a transaction.
fn written(table: &Table, command: &Command) -> String {
    let block = |block: u8| table.names.of(Subject::Block(block.into()));
    match *command {
        Command::Load { register, value } => format!("LOAD r{register} {value}"),
        Command::Add { register, other } => format!("ADD r{register} r{other}"),
        Command::Get { register, block: number, offset } => {
            format!("GET r{register} {} at {offset}", block(number))
        }
        Command::Put { block: number, offset, register } => {
            format!("PUT {} at {offset} from r{register}", block(number))
        }
        // No other may stand between BEGIN and COMMIT.
        _ => String::new(),
    }
}

fn line(fields: [String; 21]) -> String {
    fields.map(|field| quoted(&field)).join(",") + "\n"
}

/// In quotes where the field has a character that would end it. None begins as a formula of a spreadsheet does: a name begins with a
/// letter.
fn quoted(field: &str) -> String {
    if field.contains([',', '"', '\n', '\r']) {
        format!("\"{}\"", field.replace('"', "\"\""))
    } else {
        field.to_string()
    }
}
