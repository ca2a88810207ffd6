//! The chart: what it records is what the run did, and what it draws is readable.

use simulator::generator::{case, SEED};
use simulator::machine::Machine;
use simulator::observer::{Cause, Fate, NoObserver, Statement};
use simulator::report::render;
use simulator::sheet::{parse, Sheet};
use simulator::TOP_LIMIT;
use tools::chart::{draw, Options};
use tools::encode::encode;
use tools::examples::folder;
use tools::recording::series::all_series;
use tools::recording::statement::Kind;
use tools::recording::subject::Subject;
use tools::recording::{Done, Recording, Tick};

fn example(name: &str) -> Vec<u8> {
    std::fs::read(folder().join(format!("{name}.sheet"))).unwrap()
}

fn recording(sheet: &[u8]) -> Recording {
    Recording::new(&parse(sheet).unwrap(), TOP_LIMIT as u32, 0, TOP_LIMIT as u32 - 1)
}

fn all_done(recording: &Recording) -> impl Iterator<Item = &Done> {
    recording.ticks.iter().filter_map(|tick| tick.done.as_ref())
}

fn with_fate(recording: &Recording, fate: Fate) -> usize {
    recording.ticks.iter().map(|tick| tick.tasks_with(fate).count()).sum()
}

/// The good sheets of the corpus, but for the longest runs.
fn good_sheets() -> impl Iterator<Item = Sheet> {
    (0..400)
        .filter(|index| index % 100 != 99)
        .filter_map(|index| parse(&case(SEED, index).sheet).ok())
}

#[test]
fn a_recording_has_the_figures_of_the_report() {
    let (mut drops, mut waits, mut losses) = (0, 0, 0);
    for sheet in good_sheets() {
        let mut machine = Machine::new(&sheet);
        machine.run(TOP_LIMIT as u32, &mut NoObserver);
        let recording = Recording::new(&sheet, TOP_LIMIT as u32, 0, TOP_LIMIT as u32 - 1);
        assert_eq!(recording.run_ticks, machine.tick);
        assert_eq!(recording.ticks.len(), machine.tick as usize);
        for (task, counts) in machine.counts.iter().enumerate().take(sheet.bodies.len()) {
            let own = || all_done(&recording).filter(|done| done.task == task);
            assert_eq!(own().count(), counts.ticks as usize);
            let ended = own().filter(|done| done.ends_job).count();
            assert_eq!(ended, (counts.finished + counts.spent) as usize);
            let losing: Vec<&Done> = own().filter(|done| done.lost.is_some()).collect();
            assert_eq!(losing.len(), counts.lost as usize);
            assert!(losing.iter().all(|done| done.lost == Some(cause_at(done.statement))));
            losses += losing.len();
            assert_eq!(recording.counts[task], *counts);
            let tasks = recording.ticks.iter().flat_map(|tick| tick.tasks_with(Fate::Dropped));
            let dropped = tasks.filter(|dropped| *dropped == task).count();
            assert_eq!(dropped, counts.dropped as usize);
            drops += dropped;
        }
        // With the limit at 65,535 none of these runs ends while one waits.
        let waited = with_fate(&recording, Fate::Waits);
        assert_eq!(waited, with_fate(&recording, Fate::StartsAfterWaiting));
        waits += waited;
        // The last value of each series is that of the report's W and B lines.
        let report = render(&machine);
        for series in all_series(&recording) {
            let line = match series.subject {
                Subject::Word(word) => format!("W {word} {}\n", series.before(usize::MAX)),
                Subject::Block(block) => {
                    let version = series.before(usize::MAX).trim_start_matches("version ");
                    format!("B {block} {version} ")
                }
                Subject::Task(task) => panic!("a series of task {task}"),
            };
            assert!(report.contains(&line), "{line} is not in\n{report}");
        }
    }
    assert!(drops > 100 && waits > 1000 && losses > 50, "{drops}, {waits}, {losses}");
}

/// What a statement that loses an attempt loses it by.
fn cause_at(statement: Statement) -> Cause {
    match statement {
        Statement::AgainLook | Statement::AgainFetch => Cause::StaleVersion,
        Statement::CommitNo
        | Statement::CleanBackToInit
        | Statement::CleanNothing
        | Statement::CleanMark => Cause::RejectedCommit,
        _ => panic!("an attempt is lost at {statement:?}"),
    }
}

#[test]
fn the_highest_task_with_a_job_runs_before_lower_ones() {
    for sheet in good_sheets() {
        let recording = Recording::new(&sheet, TOP_LIMIT as u32, 0, TOP_LIMIT as u32 - 1);
        for tick in &recording.ticks {
            match &tick.done {
                Some(done) => assert!(tick.preempted.iter().all(|task| *task < done.task)),
                None => assert!(tick.preempted.is_empty() && tick.releases.is_empty()),
            }
        }
    }
}

#[test]
fn p5_statement_by_statement() {
    let recording = recording(&example("worked/p5"));
    let shown = |done: &Done| {
        let label = tools::recording::statement::label(done.statement);
        let subject = done.subject.map(|subject| format!(" {subject}")).unwrap_or_default();
        format!("{}: {label}{subject}", done.task)
    };
    let shown: Vec<String> = all_done(&recording).map(shown).collect();
    let lower = "0: LOAD, 0: LOAD, 0: PAIR w0, 0: Start, 0: Test, 0: Load w0, 0: Look w0, \
                 0: Save w0, 0: Install w0";
    let upper = "1: LOAD, 1: LOAD, 1: PAIR w0, 1: PAIR w1, 1: Start, 1: Test, 1: Load w0, \
                 1: Look w0, 1: Fetch w0, 1: Save w0, 1: Mark t0, 1: Install w0, 1: Test, \
                 1: Load w1, 1: Look w1, 1: Save w1, 1: Fail w1, 1: Test, 1: Commit, 1: Clean w0";
    let end = "0: Test, 0: Commit, 0: Clean w0";
    assert_eq!(shown.join(", "), [lower, upper, end].join(", "));
    assert_eq!(all_done(&recording).filter(|done| done.commit == Some(false)).count(), 2);
    assert!(all_series(&recording).iter().all(|series| series.changes.is_empty()));
}

#[test]
fn the_contended_example_changes_its_blocks_at_the_commits() {
    let recording = recording(&example("contended-transaction"));
    let commits: Vec<usize> = (0..recording.ticks.len())
        .filter(|tick| {
            recording.ticks[*tick].done.as_ref().is_some_and(|done| done.commit == Some(true))
        })
        .collect();
    let series = all_series(&recording);
    let changes: Vec<(usize, &str)> =
        series[0].changes.iter().map(|change| (change.tick, change.full.as_str())).collect();
    assert_eq!(
        changes,
        [
            (commits[0], "version 101, at 0: 507, at 7: 1"),
            (commits[2], "version 102, at 0: 514, at 7: 2"),
            (commits[3], "version 103, at 0: 464"),
        ]
    );
    assert_eq!(series[1].before(commits[1]), "version 200");
    assert_eq!(series[1].before(commits[1] + 1), "version 201");
    let lost: Vec<Cause> = all_done(&recording).filter_map(|done| done.lost).collect();
    assert_eq!(lost, [Cause::StaleVersion, Cause::RejectedCommit, Cause::RejectedCommit]);
}

fn cells_drawn(picture: &str) -> usize {
    picture.matches("rotate(-90)").count()
}

/// What became of the releases, as tick, task and fate.
fn fates(recording: &Recording) -> Vec<(usize, usize, Fate)> {
    let ticks = recording.ticks.iter().enumerate();
    let releases = |(tick, recorded): (usize, &Tick)| -> Vec<(usize, usize, Fate)> {
        recorded.releases.iter().map(|&(task, fate)| (tick, task, fate)).collect()
    };
    ticks.flat_map(releases).collect()
}

#[test]
fn releases_that_wait_and_start_tick_by_tick() {
    use Fate::*;
    let waits = recording(&example("worked/release-waits"));
    assert_eq!(fates(&waits), [(0, 0, Starts), (3, 0, Waits), (12, 0, StartsAfterWaiting)]);
    let ends = recording(&example("worked/release-as-a-job-ends"));
    assert_eq!(
        fates(&ends),
        [
            (0, 0, Starts),
            (1, 0, Waits),
            (2, 0, StartsAfterWaiting),
            (2, 0, Waits),
            (4, 0, StartsAfterWaiting),
            (6, 0, Starts),
        ]
    );
    let dropped = recording(&example("worked/release-dropped"));
    assert_eq!(with_fate(&dropped, Waits), 4);
    assert_eq!(fates(&dropped)[5], (5, 0, Dropped));
    let starts = fates(&dropped)[6..].to_vec();
    assert_eq!(starts, [12, 23, 34, 45].map(|tick| (tick, 0, StartsAfterWaiting)));
}

/// The middle and the height of each bar, and the legend's two left out.
fn bars(picture: &str) -> Vec<(f32, f32)> {
    let number = |line: &str, name: &str| -> f32 {
        let start = line.split(&format!("{name}=\"")).nth(1).unwrap();
        start.split('"').next().unwrap().parse().unwrap()
    };
    let lines = picture.lines().filter(|line| line.contains("class=\"bar\""));
    let middle = |line| (number(line, "x1") + number(line, "x2")) / 2.0;
    let mut bars: Vec<(f32, f32)> = lines.map(|line| (middle(line), number(line, "y1"))).collect();
    bars.truncate(bars.len() - 2);
    bars
}

/// Ticks are 14 wide from 128 on. A waiting release has its bar below, one that starts above.
#[test]
fn waiting_releases_are_drawn() {
    let picture = |name: &str| draw(&example(name), &Options::default()).unwrap();
    let waits = bars(&picture("worked/release-waits"));
    let middles: Vec<f32> = waits.iter().map(|bar| bar.0).collect();
    assert_eq!(middles, [128.0 + 3.0 * 14.0, 128.0 + 12.0 * 14.0]);
    assert!(waits[0].1 > waits[1].1);
    // Before tick 2 one starts and another waits, which stands 9 to its right.
    let ends = bars(&picture("worked/release-as-a-job-ends"));
    let middles: Vec<f32> = ends.iter().map(|bar| bar.0).collect();
    assert_eq!(middles, [142.0, 156.0, 165.0, 184.0]);
    assert!(ends[1].1 < ends[2].1);
    assert_eq!(bars(&picture("worked/p5")), []);
}

/// The totals in the margin, from the top.
fn totals(sheet: &[u8], options: &Options) -> Vec<String> {
    let picture = draw(sheet, options).unwrap();
    let texts = picture.split("</text>").filter_map(|text| text.rsplit('>').next());
    texts.filter(|text| text.ends_with(" in all")).map(str::to_string).collect()
}

/// Each task's row has its own numbers, and none if they are 0; a part of the run shows the whole run's.
#[test]
fn lost_attempts_and_dropped_releases_are_told_by_task() {
    let in_one_band = Options { ticks_in_band: 100, ..Options::default() };
    let of_example = |name: &str| totals(&example(name), &in_one_band);
    let of_two = ["dropped 2 in all", "dropped 1 in all"];
    assert_eq!(of_example("worked/drops-of-two-tasks"), of_two);
    let part = Options { first: 40, last: 50, ..Options::default() };
    assert_eq!(totals(&example("worked/drops-of-two-tasks"), &part), of_two);
    assert_eq!(of_example("worked/release-dropped"), ["dropped 1 in all"]);
    assert_eq!(of_example("worked/stale-then-rejected"), ["lost 2 in all"]);
    assert!(of_example("worked/release-waits").is_empty());
}

/// Two tasks U: t0's first job loses an attempt while four releases wait and a fifth is dropped.
#[test]
fn both_numbers_stand_side_by_side() {
    let text = std::fs::read_to_string(folder().join("worked/two-tasks-u.txt")).unwrap();
    let more: String = (0..6).map(|tick| format!("RELEASE {tick} t0\n")).collect();
    let sheet = encode(&text.replace("RELEASE 0 t0\n", &more)).unwrap().bytes;
    // 191 ticks, in four bands.
    assert_eq!(totals(&sheet, &Options::default()), ["lost 1, dropped 1 in all"; 4]);
}

#[test]
fn first_and_last_tick_cut_the_picture() {
    let sheet = example("cold-room");
    let whole = draw(&sheet, &Options::default()).unwrap();
    assert!(whole.contains("Ticks 0 to 278; the whole run has 279."));
    let part = Options { first: 50, last: 79, ..Options::default() };
    let part = draw(&sheet, &part).unwrap();
    assert!(part.contains("Ticks 50 to 79; the whole run has 279."));
    assert_eq!(cells_drawn(&part), 30);
    // Ticks 237 to 239 are idle.
    assert_eq!(cells_drawn(&whole), 279 - 3);
}

/// The sizes of the words in the cells that had to be made smaller.
fn smaller_sizes(picture: &str) -> Vec<f32> {
    let cells = picture.lines().filter(|line| line.contains("rotate(-90)"));
    let sizes = cells.filter_map(|line| line.split("font-size: ").nth(1)?.split("px").next());
    sizes.map(|size| size.parse().unwrap()).collect()
}

#[test]
fn every_good_sheet_of_the_corpus_is_drawn_readably() {
    for index in 0..400 {
        let sheet = case(SEED, index).sheet;
        if parse(&sheet).is_ok() {
            let picture = draw(&sheet, &Options::default()).unwrap();
            assert_eq!(picture.matches("<text").count(), picture.matches("</text>").count());
            assert!(picture.starts_with("<svg ") && picture.ends_with("</svg>\n"));
            assert!(smaller_sizes(&picture).iter().all(|size| *size >= 7.5));
        }
    }
}

#[test]
fn kinds_can_be_told_apart_in_grey() {
    let grey = |kind: Kind| {
        let channel = |start: usize| u32::from_str_radix(&kind.colour()[start..start + 2], 16);
        let (red, green, blue) = (channel(1).unwrap(), channel(3).unwrap(), channel(5).unwrap());
        (299 * red + 587 * green + 114 * blue) / 1000
    };
    // The last kind has an outline of its own.
    let levels: Vec<u32> = Kind::ALL[..7].iter().map(|kind| grey(*kind)).collect();
    assert!(levels.windows(2).all(|pair| pair[0] >= pair[1] + 25), "{levels:?}");
}
