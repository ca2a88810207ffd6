//! The table of operations as JSON.

use std::fmt::{self, Display, Formatter, Write};

use simulator::history::Exchange;
use simulator::sheet::Command;

use super::rows::{cause, Arguments, Row, Table};
use crate::json::string;
use crate::recording::subject::Subject;
use crate::source::Source;

/// As much of JSON as the table needs.
#[derive(Clone)]
enum Json {
    Null,
    Number(u64),
    Text(String),
    List(Vec<Json>),
    Object(Vec<(&'static str, Json)>),
}

pub fn write(table: &Table, source: &Source) -> String {
    let head = [
        ("program", text("hizgrael")),
        ("source", text(source.sentence())),
        ("limit", number(table.limit)),
        ("ticks", number(table.ticks)),
        ("report", text(&*table.report)),
    ];
    let head: String = head.iter().map(|(key, value)| format!("  \"{key}\": {value},\n")).collect();
    // A line for each operation, so that line tools can take one.
    let rows = table.rows.iter().enumerate();
    let rows: Vec<String> =
        rows.map(|(index, row)| format!("\n    {}", operation(table, index, row))).collect();
    let close = if rows.is_empty() { "" } else { "\n  " };
    format!("{{\n{head}  \"operations\": [{}{close}]\n}}\n", rows.join(","))
}

fn operation(table: &Table, index: usize, row: &Row) -> Json {
    let lost = row.lost.iter();
    let lost =
        lost.map(|one| Json::Object(vec![("tick", number(one.tick)), ("cause", text(cause(one)))]));
    Json::Object(vec![
        ("number", number(index as u32)),
        ("task", number(row.task as u32)),
        ("task_name", name(table, Subject::Task(row.task))),
        ("operation", text(row.arguments.operation())),
        ("first_tick", number(row.first_tick)),
        ("last_tick", optional(row.last_tick)),
        ("own_ticks", number(row.own_ticks)),
        ("arguments", arguments(table, &row.arguments)),
        ("answers", numbers(&row.answers)),
        ("outcome", text(row.outcome)),
        ("lost_attempts", Json::List(lost.collect())),
        ("commit_tick", optional(row.commit_tick)),
        ("order", optional(row.order.map(|place| place.number as u32))),
        ("order_tick", optional(row.order.map(|place| place.tick))),
        ("exchanges", Json::List(row.exchanges.iter().map(exchange).collect())),
    ])
}

/// Its answer is there once its Commit was done, even if the limit cut it off later.
fn exchange(exchange: &Exchange) -> Json {
    let Exchange { pairs, span, committed, tally, .. } = exchange;
    let answer = committed.map(|yes| text(if yes { "yes" } else { "no" }));
    Json::Object(vec![
        ("first_tick", number(span.first)),
        ("last_tick", optional(span.last)),
        ("own_ticks", number(span.own_ticks())),
        ("words", number(pairs.len() as u32)),
        ("answer", answer.unwrap_or(Json::Null)),
        ("tried", number(tally.tried)),
        ("differed", number(tally.differed)),
        ("fetched", number(tally.fetched)),
        ("marked", number(tally.marked)),
        ("failed", number(tally.failed)),
    ])
}

fn arguments(table: &Table, arguments: &Arguments) -> Json {
    match arguments {
        Arguments::Read { word } => Json::Object(word_fields(table, *word)),
        Arguments::Swap { pairs } => {
            let pair = |pair: &simulator::machine::Pair| {
                let mut fields = word_fields(table, pair.word);
                fields.extend([("old", number(pair.old)), ("new", number(pair.new))]);
                Json::Object(fields)
            };
            Json::Object(vec![("pairs", Json::List(pairs.iter().map(pair).collect()))])
        }
        Arguments::Transaction { registers, commands } => {
            let commands = commands.iter().filter_map(|command| written(table, command));
            Json::Object(vec![
                ("registers", numbers(registers)),
                ("commands", Json::List(commands.collect())),
            ])
        }
    }
}

fn word_fields(table: &Table, word: u8) -> Vec<(&'static str, Json)> {
    vec![("word", number(word.into())), ("name", name(table, Subject::Word(word.into())))]
}

/// A command of a transaction. No other than these four may stand between BEGIN and COMMIT.
fn written(table: &Table, command: &Command) -> Option<Json> {
    let (word, fields) = match *command {
        Command::Load { register, value } => {
            ("LOAD", vec![("register", number(register.into())), ("value", number(value))])
        }
        Command::Add { register, other } => {
            ("ADD", vec![("register", number(register.into())), ("other", number(other.into()))])
        }
        Command::Get { register, block, offset } => {
            ("GET", block_fields(table, block, offset, register))
        }
        Command::Put { block, offset, register } => {
            ("PUT", block_fields(table, block, offset, register))
        }
        _ => return None,
    };
    Some(Json::Object([vec![("command", text(word))], fields].concat()))
}

fn block_fields(table: &Table, block: u8, offset: u8, register: u8) -> Vec<(&'static str, Json)> {
    vec![
        ("block", number(block.into())),
        ("name", name(table, Subject::Block(block.into()))),
        ("offset", number(offset.into())),
        ("register", number(register.into())),
    ]
}

fn name(table: &Table, subject: Subject) -> Json {
    table.names.name(subject).map_or(Json::Null, text)
}

fn text(text: impl Into<String>) -> Json {
    Json::Text(text.into())
}

fn number(value: u32) -> Json {
    Json::Number(value.into())
}

fn optional(value: Option<u32>) -> Json {
    value.map_or(Json::Null, number)
}

fn numbers(values: &[u32]) -> Json {
    Json::List(values.iter().copied().map(number).collect())
}

impl Display for Json {
    fn fmt(&self, formatter: &mut Formatter<'_>) -> fmt::Result {
        match self {
            Json::Null => formatter.write_str("null"),
            Json::Number(value) => write!(formatter, "{value}"),
            Json::Text(text) => formatter.write_str(&string(text)),
            Json::List(values) => {
                formatter.write_char('[')?;
                for (index, value) in values.iter().enumerate() {
                    write!(formatter, "{}{value}", comma(index))?;
                }
                formatter.write_char(']')
            }
            Json::Object(fields) => {
                formatter.write_char('{')?;
                for (index, (key, value)) in fields.iter().enumerate() {
                    write!(formatter, "{}\"{key}\": {value}", comma(index))?;
                }
                formatter.write_char('}')
            }
        }
    }
}

fn comma(index: usize) -> &'static str {
    if index == 0 {
        ""
    } else {
        ", "
    }
}
