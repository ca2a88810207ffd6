//! The T and E lines of a report by the names of their fields. Of all tests only this file knows the
//! fields and their order; those of tools/ and linked/ include it.
#![allow(dead_code)]

/// A T line but for its task.
#[derive(Clone, Copy, Debug, Default, PartialEq, Eq)]
pub struct TaskLine {
    pub finished: u32,
    pub spent: u32,
    pub lost: u32,
    pub ticks: u32,
    pub dropped: u32,
}

impl TaskLine {
    /// So many jobs finished in so many ticks, and all else 0.
    pub fn finished(finished: u32, ticks: u32) -> TaskLine {
        TaskLine { finished, ticks, ..TaskLine::default() }
    }

    pub fn spent(spent: u32, ticks: u32) -> TaskLine {
        TaskLine { spent, ticks, ..TaskLine::default() }
    }

    pub fn losing(self, lost: u32) -> TaskLine {
        TaskLine { lost, ..self }
    }

    pub fn dropping(self, dropped: u32) -> TaskLine {
        TaskLine { dropped, ..self }
    }

    /// The line as a report must have it.
    pub fn written(self, task: u8) -> String {
        let TaskLine { finished, spent, lost, ticks, dropped } = self;
        format!("T {task} {finished} {spent} {lost} {ticks} {dropped}\n")
    }

    pub fn of(report: &str, task: u8) -> TaskLine {
        let found = numbers(report, &format!("T {task}"));
        let [finished, spent, lost, ticks, dropped] = found[..] else {
            panic!("the T line of task {task} has {found:?}");
        };
        TaskLine { finished, spent, lost, ticks, dropped }
    }
}

/// The T lines of all tasks, in order.
pub fn task_lines(report: &str) -> Vec<TaskLine> {
    let tasks = report.lines().filter(|line| line.starts_with("T ")).count();
    (0..tasks).map(|task| TaskLine::of(report, task as u8)).collect()
}

pub fn end_line(ticks: u32) -> String {
    format!("E {ticks}\n")
}

/// The number of the E line.
pub fn ticks_done(report: &str) -> u32 {
    match numbers(report, "E")[..] {
        [ticks] => ticks,
        ref found => panic!("the E line has {found:?}"),
    }
}

/// The numbers of the report line that starts with these words, after them.
pub fn numbers(report: &str, start: &str) -> Vec<u32> {
    let start = format!("{start} ");
    let line = report.lines().find(|line| line.starts_with(&start)).expect("no such line");
    line[start.len()..].split(' ').map(|number| number.parse().unwrap()).collect()
}
