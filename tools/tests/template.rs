//! The template for one's own controller: its report and the ticks worth seeing, worked out by hand.
//!
//! Alone, the timer takes 10 ticks up to its SWAP and 15 for it, the recorder 36, the panel 25 and 28. The run:
//!   0 to 17     the timer, up to the Load of `changes` in its SWAP; `setpoint` is installed with tick 15
//!   18 to 73    the panel, 3 ticks longer: its READ and its SWAP fetch the setpoint, and it Marks the timer: 220, 1
//!   74 to 81    the timer: Look, Save, Install finds another word, Fail, Test, Commit: no, two Cleans
//!   82 to 99    the recorder reads 220, up to the eighth copy of its first PUT
//!   100 to 124  the timer: 225, 2
//!   125 to 142  the recorder's other 18 ticks: entry 1, sum 220, version 2; the panel made version 1
//!   143 to 149  idle
//!   150 to 164  the recorder reads 225, up to the fifth copy of its first PUT
//!   165 to 217  the panel: 245, 3; version 3
//!   218 to 242  the timer: 250, 4
//!   243 to 280  the recorder: three copies, the version is stale in tick 247; its transaction again, 33 ticks
//!               after BEGIN: entry 2, sum 445, version 4
//!   281 to 299  idle
//!   300 to 324  the timer: 255, 5
//!   325 to 360  the recorder reads 255: entry 3, sum 700, version 5
//! Ticks used: recorder 36 + 15 + 38 + 36, timer 26 + 3 * 25, panel 56 + 53; with 26 idle ones 361.

use std::fs;

use simulator::observer::{Cause, Event, NoObserver, Observer, Statement};
use simulator::{run_observed, TOP_LIMIT};
use tools::encode::{encode, Encoded};
use tools::examples::folder;
use tools::explain::verdict;
use tools::names::Names;
use tools::recording::subject::Subject;

const REPORT: &str = "\
W 0 255
W 1 5
B 0 5 3 700 2 0 0 0 0 0
T 0 3 0 1 125 0
R 0 0 255 3 700 0 0 0 1
T 1 4 0 0 101 0
R 1 1 250 4 255 5 0 0 0
T 2 2 0 0 109 0
R 2 1 225 2 245 3 2 0 0
E 361
";

const TIMER: usize = 1;

fn template() -> Encoded {
    encode(&fs::read_to_string(folder().join("template.txt")).unwrap()).unwrap()
}

#[test]
fn it_is_accepted_and_has_the_report_worked_out_by_hand() {
    let template = template();
    assert!(verdict(&template.bytes, &template.names, |place| template.line_of(place)).accepted());
    let report = run_observed(&template.bytes, TOP_LIMIT, &mut NoObserver).unwrap();
    assert_eq!(report, REPORT);
}

#[test]
fn everything_has_a_name() {
    let mut expected = Names::default();
    expected.set(Subject::Word(0), "setpoint");
    expected.set(Subject::Word(1), "changes");
    expected.set(Subject::Block(0), "logbook");
    expected.set(Subject::Task(0), "recorder");
    expected.set(Subject::Task(1), "timer");
    expected.set(Subject::Task(2), "panel");
    assert_eq!(template().names, expected);
}

/// The answers of the timer's SWAPs, its statements around the interruption, and the lost attempts.
#[derive(Default)]
struct Seen {
    timer_commits: Vec<(u32, bool)>,
    timer_statements: Vec<(u32, Statement)>,
    lost: Vec<(u32, usize, Cause)>,
}

impl Observer for Seen {
    fn statement(&mut self, tick: u32, task: usize, statement: Statement) {
        if task == TIMER && (15..=81).contains(&tick) {
            self.timer_statements.push((tick, statement));
        }
    }

    fn event(&mut self, tick: u32, task: usize, event: Event<'_>) {
        match event {
            Event::ExchangeCommits { answer } if task == TIMER => {
                self.timer_commits.push((tick, answer));
            }
            Event::AttemptLost { cause } => self.lost.push((tick, task, cause)),
            _ => {}
        }
    }
}

/// What its comments promise: an exchange interrupted in the middle, a no, and a lost attempt.
#[test]
fn the_interruptions_are_where_the_comments_say() {
    let mut seen = Seen::default();
    run_observed(&template().bytes, TOP_LIMIT, &mut seen).unwrap();
    // Two Cleans follow each Commit, so the third tick from the end of a job.
    assert_eq!(seen.timer_commits, [(79, false), (122, true), (240, true), (322, true)]);
    let around = [
        (15, Statement::InstallDone),
        (16, Statement::ExchangeTest),
        (17, Statement::ExchangeLoad),
        (74, Statement::ExchangeLook),
        (75, Statement::ExchangeSave),
        (76, Statement::InstallNotDone),
        (77, Statement::FailAfterInstall),
        (78, Statement::ExchangeTest),
        (79, Statement::CommitNo),
        (80, Statement::CleanNothing),
        (81, Statement::CleanNothing),
    ];
    assert_eq!(seen.timer_statements, around);
    assert_eq!(seen.lost, [(247, 0, Cause::StaleVersion)]);
}
