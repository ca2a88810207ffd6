//! How many ticks of its own each command takes, fewest and most: the table of docs/SHEETS.md, on generated runs.

use std::collections::BTreeMap;

use simulator::generator::case;
use simulator::machine::{Machine, Pair, Step};
use simulator::observer::{Cause, Event, Observer, Statement};
use simulator::sheet::{self, MAX_TASKS};
use simulator::TOP_LIMIT;

const SEED: u64 = 20_261_303;
const CASES: u64 = 6_000;

/// What one tick did.
#[derive(Default)]
struct Tick {
    done: Option<(usize, Statement)>,
    pairs: Option<Vec<Pair>>,
    answer: Option<bool>,
    lost: Option<Cause>,
}

impl Observer for Tick {
    fn statement(&mut self, _tick: u32, task: usize, statement: Statement) {
        self.done = Some((task, statement));
    }

    fn event(&mut self, _tick: u32, _task: usize, event: Event<'_>) {
        match event {
            Event::ExchangeBegins { pairs } => self.pairs = Some(pairs.to_vec()),
            Event::ExchangeEnds { answer } => self.answer = Some(answer),
            Event::AttemptLost { cause } => self.lost = Some(cause),
            _ => {}
        }
    }
}

/// A command that has come to its end: its statements so far, its exchange's pairs and answer.
#[derive(Clone, Default)]
struct Ended {
    statements: Vec<Statement>,
    pairs: Vec<Pair>,
    answer: Option<bool>,
    stale: bool,
}

type Range = (usize, usize);

impl Ended {
    /// The row of the table, with its fewest and most ticks.
    fn row(&self) -> (String, Range) {
        let copies = self.statements.contains(&Statement::PutCopies);
        // A PUT whose second reading is stale does not write.
        let unwritten = usize::from(self.stale);
        let (name, (fewest, most)) = match self.statements[0] {
            Statement::Load | Statement::Add | Statement::Pair | Statement::Begin => {
                ("plain", (1, 1))
            }
            Statement::ReadLoad => ("READ", (2, 3)),
            Statement::FirstLoad if copies => {
                ("PUT, not touched yet", (13 - unwritten, 15 - unwritten))
            }
            Statement::FirstLoad => ("GET, not touched yet", (5, 7)),
            Statement::GetFromBlock | Statement::GetFromCopy => ("GET, touched before", (3, 4)),
            Statement::PutCopies => ("first PUT, touched by GET", (11 - unwritten, 12 - unwritten)),
            Statement::PutWrites => ("later PUT", (1, 1)),
            Statement::CommitOfNothing => ("COMMIT, nothing touched", (1, 1)),
            Statement::CommitSpent => ("COMMIT, spent", (1, 1)),
            Statement::CommitGathers => ("COMMIT", self.exchange(1)),
            Statement::ExchangeStart => ("SWAP", self.exchange(0)),
            other => panic!("no command begins with {other:?}"),
        };
        let shown = match self.answer {
            Some(yes) => format!("{name} of {} words, answer {}", self.pairs.len(), u8::from(yes)),
            None if self.stale => format!("{name}, stale"),
            None => name.to_string(),
        };
        (shown, (fewest, most))
    }

    /// An exchange, after so many ticks that gather.
    fn exchange(&self, gather: usize) -> Range {
        let words = self.pairs.len();
        let changing = self.pairs.iter().filter(|pair| pair.changes()).count();
        match self.answer {
            Some(true) => (gather + 6 * words + 3, gather + 8 * words + 3),
            _ => (gather + 8, gather + 8 * words + changing + 4),
        }
    }
}

/// Runs a sheet and hands out each command that ends, with the machine's own word for when it does.
fn commands_of(sheet: &[u8], limit: u32, mut ended: impl FnMut(&Ended)) {
    let Ok(parsed) = sheet::parse(sheet) else { return };
    let mut machine = Machine::new(&parsed);
    let mut under_way = vec![Ended::default(); MAX_TASKS];
    for number in 0..limit {
        let mut tick = Tick::default();
        machine.run(number + 1, &mut tick);
        if machine.tick == number {
            return;
        }
        let Some((task, statement)) = tick.done else { continue };
        let command = &mut under_way[task];
        command.statements.push(statement);
        if let Some(pairs) = tick.pairs {
            command.pairs = pairs;
        }
        if machine.jobs[task].step == Step::Command {
            command.answer = tick.answer;
            command.stale = tick.lost == Some(Cause::StaleVersion);
            ended(command);
            *command = Ended::default();
        }
    }
}

#[test]
fn every_command_keeps_to_the_table() {
    let mut reached: BTreeMap<String, (Range, Range)> = BTreeMap::new();
    for number in 0..CASES {
        let case = case(SEED, number);
        if case.limit > TOP_LIMIT {
            continue;
        }
        commands_of(&case.sheet, case.limit as u32, |command| {
            let ticks = command.statements.len();
            let (name, (fewest, most)) = command.row();
            assert!((fewest..=most).contains(&ticks), "case {number}: {name}, {ticks} ticks");
            let seen = reached.entry(name).or_insert(((fewest, most), (ticks, ticks)));
            // The most of an answer 0 grows with the changing words.
            seen.0 .1 = seen.0 .1.max(most);
            seen.1 = (seen.1 .0.min(ticks), seen.1 .1.max(ticks));
        });
    }
    // Both ends are met, but in rows of stale restarts and of long exchanges, which need several rivals at once.
    let rare = |name: &str| {
        let short =
            name.contains(" of 1 words, answer 1") || name.contains(" of 2 words, answer 1");
        name.ends_with("stale") || name.contains(" words, answer ") && !short
    };
    for (name, (table, seen)) in reached.iter().filter(|row| !rare(row.0)) {
        assert_eq!(seen, table, "{name}");
    }
    assert!(reached.len() > 25, "{reached:?}");
}
