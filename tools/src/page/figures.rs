//! The figures of the whole run: a sentence for the top of the page, and a table by task.

use simulator::machine::Counts;
use simulator::sheet::MAX_TASKS;

use super::template::escaped;
use super::Options;
use crate::names::Names;
use crate::recording::subject::Subject;
use crate::recording::Recording;

pub fn sentence(recording: &Recording, options: &Options) -> String {
    let sum = |count: fn(&Counts) -> u32| recording.counts.iter().map(count).sum::<u32>();
    let ticks = recording.run_ticks;
    let at_limit = if ticks == options.limit { " (the limit)" } else { "" };
    format!(
        "{}{at_limit}, {} idle; {}; {} finished, {} spent; {}; {}.",
        counted(ticks, "tick"),
        grouped(ticks - sum(|counts| counts.ticks)),
        counted(recording.tasks as u32, "task"),
        counted(sum(|counts| counts.finished), "job"),
        grouped(sum(|counts| counts.spent)),
        counted(sum(|counts| counts.lost), "attempt") + " lost",
        dropped(recording, &options.names),
    )
}

/// The dropped releases, with those of each task that has some.
fn dropped(recording: &Recording, names: &Names) -> String {
    let with_drops = (0..recording.tasks).filter(|task| recording.counts[*task].dropped > 0);
    let parts: Vec<String> = with_drops
        .map(|task| {
            let dropped = grouped(recording.counts[task].dropped);
            format!("{dropped} of {}", names.of(Subject::Task(task)))
        })
        .collect();
    let total = recording.counts.iter().map(|counts| counts.dropped).sum();
    let total = counted(total, "release") + " dropped";
    if parts.is_empty() {
        total
    } else {
        format!("{total} ({})", parts.join(", "))
    }
}

/// Rows of the table by task, the highest on top as in the chart.
pub fn table(recording: &Recording, names: &Names) -> String {
    let mut rows = String::new();
    for task in (0..recording.tasks.min(MAX_TASKS)).rev() {
        let Counts { finished, spent, lost, ticks, dropped } = recording.counts[task];
        let name = escaped(&names.of(Subject::Task(task)));
        rows.push_str(&format!("<tr><th scope=\"row\">{name}</th>"));
        for number in [ticks, finished, spent, lost, dropped] {
            rows.push_str(&format!("<td>{}</td>", grouped(number)));
        }
        rows.push_str("</tr>\n");
    }
    rows
}

fn counted(number: u32, thing: &str) -> String {
    let plural = if number == 1 { "" } else { "s" };
    format!("{} {thing}{plural}", grouped(number))
}

/// A number with a comma before its thousands: no count of a run has seven digits.
fn grouped(number: u32) -> String {
    match (number / 1000, number % 1000) {
        (0, rest) => rest.to_string(),
        (thousands, rest) => format!("{thousands},{rest:03}"),
    }
}
