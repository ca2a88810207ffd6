//! The data in a page is the recording's, tick by tick.

#[path = "common/page.rs"]
mod common;
#[path = "common/packed.rs"]
mod packed;

use common::{data, example, page};
use packed::{bytes, member, numbers};
use simulator::contention::Style;
use simulator::generator::{case, valid_sheet, SEED};
use simulator::observer::{Cause, Fate};
use simulator::random::Random;
use simulator::sheet::{parse, Sheet};
use simulator::TOP_LIMIT;
use tools::recording::subject::Subject;
use tools::recording::{Contents, Done, Recording};

const TOP: u32 = TOP_LIMIT as u32;

/// The lists of the page, read as the page's script reads them.
struct Read {
    ticks: usize,
    statement: Vec<u8>,
    run: Vec<u8>,
    subject: Vec<u8>,
    command: Vec<u32>,
    preempted: Vec<u8>,
    /// Tick, task and fate of each release; tick, place and value of each change.
    releases: Vec<(usize, usize, u8)>,
    changes: Vec<(usize, usize, u32)>,
    start: Vec<u32>,
}

impl Read {
    fn new(page: &str) -> Read {
        let json = data(page);
        let (each, releases, changes) =
            (member(json, "each"), member(json, "releases"), member(json, "changes"));
        let zipped = |ticks: Vec<u32>, middle: Vec<u8>| {
            ticks.into_iter().zip(middle).map(|(tick, middle)| (tick as usize, middle as usize))
        };
        let release_ticks = zipped(numbers(releases, "tick", 2), bytes(releases, "task"));
        let change_ticks = zipped(numbers(changes, "tick", 2), bytes(changes, "place"));
        let start = member(json, "start").trim_matches(['[', ']']);
        Read {
            ticks: member(json, "ticks").parse().unwrap(),
            statement: bytes(each, "statement"),
            run: bytes(each, "run"),
            subject: bytes(each, "subject"),
            command: numbers(each, "command", 2),
            preempted: bytes(each, "preempted"),
            releases: release_ticks
                .zip(bytes(releases, "fate"))
                .map(|((tick, task), fate)| (tick, task, fate))
                .collect(),
            changes: change_ticks
                .zip(numbers(changes, "value", 4))
                .map(|((tick, place), value)| (tick, place, value))
                .collect(),
            start: start.split_terminator(',').map(|number| number.parse().unwrap()).collect(),
        }
    }
}

/// The run byte's bits, as the head of run.js has them.
fn expected_run_byte(done: &Done) -> u8 {
    let mut byte = done.task as u8;
    byte |= if done.ends_job { 8 } else { 0 };
    byte |= done.commit.map_or(0, |yes| if yes { 16 } else { 32 });
    byte |= match done.lost {
        None => 0,
        Some(Cause::StaleVersion) => 64,
        Some(Cause::RejectedCommit) => 128,
    };
    byte
}

fn expected_subject_byte(subject: Option<Subject>) -> u8 {
    match subject {
        None => 0,
        Some(Subject::Word(word)) => 32 + word as u8,
        Some(Subject::Block(block)) => 64 + block as u8,
        Some(Subject::Task(task)) => 96 + task as u8,
    }
}

/// The numbers of the W and B lines, word by word and block by block.
fn numbers_of(contents: &Contents) -> Vec<u32> {
    let blocks = contents.blocks.iter();
    let blocks = blocks.flat_map(|block| std::iter::once(block.version).chain(block.values));
    contents.words.iter().copied().chain(blocks).collect()
}

/// Holds every tick of the page to the recording, and returns how many ticks there were.
fn compare(sheet: &Sheet, page: &str) -> usize {
    let recording = Recording::new(sheet, TOP, 0, TOP);
    let read = Read::new(page);
    assert_eq!(read.ticks, recording.run_ticks as usize);
    for list in [&read.statement, &read.run, &read.subject, &read.preempted] {
        assert_eq!(list.len(), read.ticks);
    }
    assert_eq!(read.command.len(), read.ticks);
    let mut contents = numbers_of(&recording.before);
    assert_eq!(read.start, contents);
    contents.extend(vec![0; recording.tasks * 8]);
    let mut changes = read.changes.iter().peekable();
    let mut releases = read.releases.iter().peekable();
    let mut registers = vec![[0; 8]; recording.tasks];
    for (number, tick) in recording.ticks.iter().enumerate() {
        let done = tick.done.as_ref();
        assert_eq!(read.statement[number], done.map_or(0, |done| done.statement as u8 + 1));
        assert_eq!(read.run[number], done.map_or(0, expected_run_byte));
        assert_eq!(
            read.subject[number],
            done.map_or(0, |done| expected_subject_byte(done.subject))
        );
        assert_eq!(read.command[number] as usize, done.map_or(0, |done| done.command));
        let preempted = (0..8).filter(|task| read.preempted[number] >> task & 1 == 1);
        assert_eq!(preempted.collect::<Vec<usize>>(), tick.preempted);
        for (task, fate) in &tick.releases {
            let fate = match fate {
                Fate::Starts => 0,
                Fate::Waits => 1,
                Fate::StartsAfterWaiting => 2,
                Fate::Dropped => 3,
            };
            assert_eq!(releases.next(), Some(&(number, *task, fate)));
        }
        while let Some(&(_, place, value)) = changes.next_if(|change| change.0 == number) {
            assert_ne!(contents[place], value, "tick {number}, place {place}: no change");
            contents[place] = value;
        }
        for change in &tick.registers {
            registers[change.task][change.register] = change.value;
        }
        let mut expected = numbers_of(&tick.after);
        expected.extend(registers.concat());
        assert_eq!(contents, expected, "after tick {number}");
    }
    assert!(changes.next().is_none() && releases.next().is_none());
    read.ticks
}

#[test]
fn the_examples_data_is_the_recordings() {
    for name in tools::examples::names().unwrap() {
        let bytes = example(&name);
        if let Ok(sheet) = parse(&bytes) {
            compare(&sheet, &page(&bytes));
        }
    }
}

#[test]
fn the_data_of_generated_sheets_is_the_recordings() {
    // Every hundredth is a long run.
    let generated = (0..300).filter(|number| number % 100 != 99);
    let ticks: usize = generated
        .map(|number| case(SEED, number).sheet)
        .filter_map(|bytes| Some(compare(&parse(&bytes).ok()?, &page(&bytes))))
        .sum();
    assert!(ticks > 20_000, "{ticks}");
}

#[test]
fn a_long_run_is_there_to_its_last_tick() {
    let bytes = valid_sheet(&mut Random::new(SEED, 0), Style::Long);
    let ticks = compare(&parse(&bytes).unwrap(), &page(&bytes));
    assert!(ticks > 30_000, "{ticks}");
}

/// The registers of the recording are those of the report, at every limit.
#[test]
fn registers_are_those_of_the_report_at_each_limit() {
    let bytes = example("contended-transaction");
    let sheet = parse(&bytes).unwrap();
    let recording = Recording::new(&sheet, TOP, 0, TOP);
    let mut registers = vec![[0; 8]; recording.tasks];
    for (number, tick) in recording.ticks.iter().enumerate() {
        for change in &tick.registers {
            registers[change.task][change.register] = change.value;
        }
        let mut buffer = vec![0; 4096];
        let answer = simulator::run(&bytes, number as u64 + 1, &mut buffer);
        let report = String::from_utf8(buffer[..answer.place].to_vec()).unwrap();
        for (task, registers) in registers.iter().enumerate() {
            let numbers = registers.map(|register: u32| register.to_string()).join(" ");
            assert!(report.contains(&format!("R {task} {numbers}\n")), "{report}");
        }
    }
}
