//! A report line by line, with what its numbers mean in plain English.

use simulator::sheet::TOP_VERSION;

use crate::names::Names;
use crate::recording::subject::Subject;

/// A longer line has its meaning below it.
const LONGEST_BESIDE: usize = 36;
const GAP: usize = 2;

const REGISTERS: &str =
    "Registers: as the job that the task started last has left them so far. Each job starts with all of them 0.";
const LOST: &str = "Lost: a transaction's attempt was done over, as a higher task came in between: a version was stale, or its COMMIT was rejected.";
const TICKS: &str = "The ticks of spent jobs and of lost attempts are among the ticks used.";
const AT_LIMIT: &str = "The run is as long as the limit allows: jobs may be unfinished, and releases may wait or be still to come.";
const DROPPED: &str = "Dropped: the release found its task at work and four others waiting. It started no job and does not wait.";

/// The lines of a report with this limit, with their meaning, and a legend for what a new reader does not know.
pub fn explained(report: &str, names: &Names, limit: u64) -> String {
    let lines: Vec<Line> = report.lines().map(Line::new).collect();
    let totals = Totals::of(&lines, limit);
    let lengths = lines.iter().map(|line| line.text.len());
    let longest = lengths.filter(|length| *length <= LONGEST_BESIDE).max();
    let column = longest.unwrap_or_default() + GAP;
    let mut text = String::new();
    for line in &lines {
        text.push_str(&beside(line.text, &line.meaning(names, &totals), column));
    }
    for (index, sentence) in totals.legend().iter().enumerate() {
        text.push_str(if index == 0 { "\n" } else { "" });
        text.push_str(&format!("{sentence}\n"));
    }
    text
}

/// Two columns, or two lines if the left one is too narrow.
fn beside(left: &str, right: &str, column: usize) -> String {
    if right.is_empty() {
        format!("{left}\n")
    } else if left.len() + GAP <= column {
        format!("{left:column$}{right}\n")
    } else {
        format!("{left}\n{:column$}{right}\n", "")
    }
}

struct Line<'a> {
    text: &'a str,
    letter: &'a str,
    /// Nothing if the line is none of a report.
    numbers: Vec<u32>,
}

impl Line<'_> {
    fn new(text: &str) -> Line<'_> {
        let mut parts = text.split(' ');
        let letter = parts.next().unwrap_or_default();
        let numbers: Result<Vec<u32>, _> = parts.map(str::parse).collect();
        Line { text, letter, numbers: numbers.unwrap_or_default() }
    }

    /// Nothing for a line that is none of a report.
    fn meaning(&self, names: &Names, totals: &Totals) -> String {
        match (self.letter, &self.numbers[..]) {
            ("W", &[word, value]) => {
                format!("{} is {value}", names.of(Subject::Word(word as usize)))
            }
            ("B", &[block, version, ref values @ ..]) => {
                let (block, values) = (names.of(Subject::Block(block as usize)), joined(values));
                format!("{block}: version {version}, values {values}")
            }
            ("T", &[task, finished, spent, lost, ticks, dropped]) => [
                format!(
                    "{}: {} finished",
                    names.of(Subject::Task(task as usize)),
                    counted(finished, "job")
                ),
                format!("{spent} spent"),
                format!("{} lost", counted(lost, "attempt")),
                format!("{} used", counted(ticks, "tick")),
                format!("{} dropped", counted(dropped, "release")),
            ]
            .join(", "),
            ("R", [task, registers @ ..]) => {
                format!(
                    "registers of {}: {}",
                    names.of(Subject::Task(*task as usize)),
                    contents(registers)
                )
            }
            ("E", &[ticks]) => all_ticks(ticks, totals.ticks_used),
            _ => String::new(),
        }
    }
}

fn counted(count: u32, thing: &str) -> String {
    let ending = if count == 1 { "" } else { "s" };
    format!("{count} {thing}{ending}")
}

fn joined(values: &[u32]) -> String {
    let values: Vec<String> = values.iter().map(u32::to_string).collect();
    values.join(" ")
}

/// The registers that are not 0, each with its number.
fn contents(registers: &[u32]) -> String {
    let numbered = registers.iter().enumerate().filter(|(_, value)| **value != 0);
    let mut items: Vec<String> =
        numbered.map(|(number, value)| format!("r{number} {value}")).collect();
    match registers.len() - items.len() {
        0 => {}
        _ if items.is_empty() => items.push("all 0".to_string()),
        1 => items.push("the other 0".to_string()),
        _ => items.push("the others 0".to_string()),
    }
    items.join(", ")
}

/// Each tick is used by one task, or idle.
fn all_ticks(ticks: u32, used: u64) -> String {
    let total = counted(ticks, "tick");
    let idle = u64::from(ticks).saturating_sub(used);
    match (ticks, idle) {
        (0, _) => format!("{total} in all"),
        (1, 0) => format!("{total} in all, not idle"),
        (1, _) => format!("{total} in all, idle"),
        (_, 0) => format!("{total} in all, none of them idle"),
        _ if idle == ticks.into() => format!("{total} in all, all of them idle"),
        _ => format!("{total} in all, {idle} of them idle"),
    }
}

/// What all T lines count together.
#[derive(Default)]
struct Totals {
    tasks: u64,
    spent: u64,
    lost: u64,
    ticks_used: u64,
    dropped: u64,
    /// 1 if the run has as many ticks as the limit allows.
    at_limit: u64,
}

impl Totals {
    fn of(lines: &[Line], limit: u64) -> Totals {
        let mut totals = Totals::default();
        for line in lines {
            match (line.letter, &line.numbers[..]) {
                ("T", &[_, _, spent, lost, ticks, dropped]) => {
                    totals.tasks += 1;
                    totals.spent += u64::from(spent);
                    totals.lost += u64::from(lost);
                    totals.ticks_used += u64::from(ticks);
                    totals.dropped += u64::from(dropped);
                }
                ("E", &[ticks]) => totals.at_limit = u64::from(u64::from(ticks) == limit),
                _ => {}
            }
        }
        totals
    }

    /// A sentence for each word that needs one here.
    fn legend(&self) -> Vec<String> {
        let spent = format!(
            "Spent: the job ended at a COMMIT that would have taken a block past version {TOP_VERSION}. It is not among the finished ones."
        );
        let sentences = [
            (self.tasks, REGISTERS),
            (self.spent, &spent),
            (self.lost, LOST),
            (self.spent + self.lost, TICKS),
            (self.dropped, DROPPED),
            (self.at_limit, AT_LIMIT),
        ];
        let needed = sentences.into_iter().filter(|(count, _)| *count > 0);
        needed.map(|(_, sentence)| sentence.to_string()).collect()
    }
}
