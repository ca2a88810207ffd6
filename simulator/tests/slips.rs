//! Slips of this trade: a copy of the simulator with one wrong edit must fail demand 3, the counts of
//! dropped releases, those of lost attempts, what COMMITs gather or the exact ticks of exchanges.
//!
//! Slips of gathering must also show in a worked figure and in the cases of the comparison: there a
//! proved library with the same slip would be found.

use std::fs;
use std::path::{Path, PathBuf};
use std::process::{Command, Output};

use simulator::generator::{case, SEED};
use simulator::observer::NoObserver;
use simulator::{run_observed, TOP_LIMIT};

/// So many of the cases, the first ones, are looked at for slips in reports.
const COMPARED: u64 = 2000;

/// Runs the checks over the corpus; a failure ends it with code 1. With a file of calls it prints the
/// report of each instead, a panic being none.
const MAIN: &str = r#"
fn main() {
    if let Some(file) = std::env::args().nth(1) {
        let text = std::fs::read_to_string(file).unwrap();
        for line in text.lines() {
            let mut numbers = line.split(' ').map(|number| number.parse::<u64>().unwrap());
            let limit = numbers.next().unwrap();
            let sheet: Vec<u8> = numbers.map(|number| number as u8).collect();
            let report = std::panic::catch_unwind(|| run_observed(&sheet, limit, &mut NoObserver));
            println!("{:?}", report.ok());
        }
        return;
    }
    for index in 0..generator::CASES {
        let case = generator::case(generator::SEED, index);
        let checked = plain::whole_operations(&case.sheet, case.limit)
            .and_then(|()| drops::drops_counted(&case.sheet, case.limit))
            .and_then(|()| lost::lost_counted(&case.sheet, case.limit))
            .and_then(|()| gathered::gathered_rising(&case.sheet, case.limit))
            .and_then(|()| exact_ticks::exact_ticks_hold(&case.sheet, case.limit));
        if let Err(fault) = checked {
            println!("case {index}: {fault}");
            std::process::exit(1);
        }
    }
}
"#;

struct Edit {
    file: &'static str,
    find: &'static str,
    replace: &'static str,
}

/// Copies the sources to a folder of this name, edited, with the library's root as main program.
fn write_copy(name: &str, edit: Option<&Edit>) -> PathBuf {
    let folder = Path::new(env!("CARGO_TARGET_TMPDIR")).join(name);
    fs::create_dir_all(&folder).unwrap();
    let sources = Path::new(env!("CARGO_MANIFEST_DIR")).join("src");
    for entry in fs::read_dir(sources).unwrap() {
        let path = entry.unwrap().path();
        let Some("rs") = path.extension().and_then(|extension| extension.to_str()) else {
            continue;
        };
        let file = path.file_name().unwrap().to_str().unwrap();
        let mut text = fs::read_to_string(&path).unwrap();
        if let Some(edit) = edit.filter(|edit| edit.file == file) {
            assert_eq!(text.matches(edit.find).count(), 1, "found not just once: {}", edit.find);
            text = text.replace(edit.find, edit.replace);
        }
        if file == "lib.rs" {
            fs::write(folder.join("main.rs"), text + MAIN).unwrap();
        } else {
            fs::write(folder.join(file), text).unwrap();
        }
    }
    folder
}

/// Without -O: compiling is what takes the time here, and arithmetic is checked for overflow too.
fn compile(folder: &Path) -> PathBuf {
    let compiler = std::env::var("RUSTC").unwrap_or_else(|_| "rustc".to_string());
    let program = folder.join("program");
    let compiled = Command::new(compiler)
        .args(["--edition", "2021", "--cap-lints", "allow", "-o"])
        .arg(&program)
        .arg(folder.join("main.rs"))
        .output()
        .unwrap();
    assert!(compiled.status.success(), "{}", String::from_utf8_lossy(&compiled.stderr));
    program
}

fn run_checks(program: &Path) -> Output {
    Command::new(program).output().unwrap()
}

fn assert_caught(name: &str, edit: Edit) {
    let output = run_checks(&compile(&write_copy(name, Some(&edit))));
    assert_eq!(output.status.code(), Some(1), "{name} is not caught");
    println!("{name}: {}", String::from_utf8_lossy(&output.stdout));
}

/// A sheet and its limit.
type Call = (Vec<u8>, u64);

/// For each call, does the copy answer as the simulator does?
fn answers_alike(program: &Path, calls: &[Call]) -> Vec<bool> {
    let file = program.with_extension("calls");
    let line = |(sheet, limit): &Call| {
        let bytes: String = sheet.iter().map(|byte| format!(" {byte}")).collect();
        format!("{limit}{bytes}\n")
    };
    fs::write(&file, calls.iter().map(line).collect::<String>()).unwrap();
    let output = Command::new(program).arg(file).output().unwrap();
    let printed = String::from_utf8(output.stdout).unwrap();
    let expected =
        |(sheet, limit): &Call| format!("{:?}", Some(run_observed(sheet, *limit, &mut NoObserver)));
    assert_eq!(printed.lines().count(), calls.len());
    printed.lines().zip(calls).map(|(line, call)| line == expected(call)).collect()
}

/// The checks or a panic find it, the worked figure has another report, and so have some of the cases
/// that are compared.
fn assert_shows(name: &str, edit: Edit, figure: &str) {
    let program = compile(&write_copy(name, Some(&edit)));
    assert!(!run_checks(&program).status.success(), "{name} is not caught");
    let sheet = format!("../examples/worked/{figure}.sheet");
    let sheet = fs::read(Path::new(env!("CARGO_MANIFEST_DIR")).join(sheet)).unwrap();
    assert_eq!(answers_alike(&program, &[(sheet, TOP_LIMIT)]), [false], "{name}, {figure}");
    let cases = (0..COMPARED).map(|index| case(SEED, index));
    let calls: Vec<Call> = cases.map(|case| (case.sheet, case.limit)).collect();
    let different = answers_alike(&program, &calls).iter().filter(|&&alike| !alike).count();
    println!("{name}: {different} of {COMPARED} cases");
    assert!(different > 0, "no case shows {name}");
}

#[test]
fn the_unedited_copy_passes() {
    let program = compile(&write_copy("unedited", None));
    let output = run_checks(&program);
    assert!(output.status.success(), "{}", String::from_utf8_lossy(&output.stdout));
    let calls: Vec<Call> =
        (0..100).map(|index| case(SEED, index)).map(|case| (case.sheet, case.limit)).collect();
    assert_eq!(answers_alike(&program, &calls), [true; 100]);
}

/// A test for each slip: its name, the file, what stands there and what the slip writes instead.
macro_rules! slips {
    ($($name:ident: $file:literal, $find:literal => $replace:literal;)*) => {
        $(#[test]
        fn $name() {
            assert_caught(stringify!($name), Edit { file: $file, find: $find, replace: $replace });
        })*
    };
}

/// A test for each slip that must show in reports, with the worked figure that it shows in.
macro_rules! slips_in_reports {
    ($($name:ident in $figure:literal: $file:literal, $find:literal => $replace:literal;)*) => {
        $(#[test]
        fn $name() {
            let edit = Edit { file: $file, find: $find, replace: $replace };
            assert_shows(stringify!($name), edit, $figure);
        })*
    };
}

slips_in_reports! {
    gathered_by_falling_number in "touched-blocks": "transaction.rs",
        "for block in 0..MAX_BLOCKS {" => "for block in (0..MAX_BLOCKS).rev() {";
    block_15_not_gathered in "block-15-read": "transaction.rs",
        "for block in 0..MAX_BLOCKS {" => "for block in 0..MAX_BLOCKS - 1 {";
    block_0_not_gathered in "eight-blocks": "transaction.rs",
        "for block in 0..MAX_BLOCKS {" => "for block in 1..MAX_BLOCKS {";
    gathering_ends_at_a_gap in "touched-blocks": "transaction.rs",
        "                continue;\n" => "                if self.jobs[task].pair_count > 0 { break } else { continue }\n";
    only_the_first_copy_looked_at_for_the_last_version in "spent-at-the-last-block": "transaction.rs",
        "put_blocks.iter().filter(at_top)" => "put_blocks.iter().take(1).filter(at_top)";
    last_version_of_block_15_not_seen in "spent-at-the-last-block": "transaction.rs",
        "put_blocks.iter().filter(at_top)"
            => "put_blocks.iter().filter(|block| **block != 15).filter(at_top)";
    spent_by_a_block_that_is_only_read in "block-15-read": "transaction.rs",
        "put_blocks.iter().filter(at_top).fold(0, |causes, block| causes | 1 << block)"
            => "let _ = put_blocks;
                let touched: Vec<u8> = (0..16).filter(|block| transaction.touched & 1 << block != 0).collect();
                touched.iter().filter(at_top).fold(0, |causes, block| causes | 1 << block)";
}

slips! {
    mark_before_install_skipped: "exchange.rs",
        "job.exchange.overlapped[position] && pair.changes()" => "false";
    mark_in_clean_skipped: "exchange.rs",
        "!still_installed && !as_new && overlapped" => "false && overlapped";
    install_compares_only_the_value: "exchange.rs",
        "if *word == init {" => "if word.value == init.value {";
    read_only_pair_cleaned_as_new: "exchange.rs",
        "let as_new = exchange.answer && pair.changes();" => "let as_new = exchange.answer;";
    old_stores_taken_back_by_block_number: "transaction.rs",
        "self.copies[task][slot] = " => "let _ = slot; self.copies[task][usize::from(block) % MAX_PUT] = ";
    commit_ignores_the_status: "exchange.rs",
        "let answer = self.status[task] == UNDECIDED;" => "let answer = true;";
    save_place_not_written: "exchange.rs",
        "self.save[task][position] = job.exchange.found;" => "";
    start_leaves_the_status: "exchange.rs",
        "self.status[task] = UNDECIDED;" => "";
    reading_ignores_the_status: "reading.rs",
        "word.valid || self.status[usize::from(word.task)] == COMMITTED" => "word.valid";
    waiting_release_starts_over_the_unfinished_job: "releases.rs",
        "let ready = self.tasks & !unfinished;" => "let ready = self.tasks; let _ = unfinished;";
    drop_counted_for_the_running_task: "releases.rs",
        "self.counts[task].dropped += 1;" => "self.counts[self.unfinished.ilog2() as usize].dropped += 1;";
    waiting_release_counted_as_dropped: "releases.rs",
        "self.waiting.add(release);" => "self.waiting.add(release); self.counts[task].dropped += 1;";
    drop_not_counted: "releases.rs",
        "self.counts[task].dropped += 1;" => "";
    restart_keeps_the_registers_of_the_lost_attempt: "transaction.rs",
        "job.registers = job.transaction.kept;" => "";
    stale_restart_not_counted: "transaction.rs",
        "self.counts[task].lost += 1;"
            => "self.counts[task].lost += u32::from(cause != Cause::StaleVersion);";
    stale_restart_counted_twice: "transaction.rs",
        "self.counts[task].lost += 1;"
            => "self.counts[task].lost += 1 + u32::from(cause == Cause::StaleVersion);";
    stale_restart_counted_for_the_task_that_committed_last: "transaction.rs",
        "self.counts[task].lost += 1;"
            => "let stale = cause == Cause::StaleVersion;
                let writer = usize::from(self.jobs[task].loaded.task);
                self.counts[if stale { writer } else { task }].lost += 1;";
    stale_restart_neither_counted_nor_told: "transaction.rs",
        "self.attempt_lost(task, cause, observer);"
            => "if cause != Cause::StaleVersion { self.attempt_lost(task, cause, observer); }";
    rejected_commit_not_counted: "transaction.rs",
        "self.counts[task].lost += 1;"
            => "self.counts[task].lost += u32::from(cause != Cause::RejectedCommit);";
    lost_attempt_told_with_the_other_cause: "transaction.rs",
        "observer.event(self.tick, task, Event::AttemptLost { cause });"
            => "observer.event(self.tick, task, Event::AttemptLost { cause: Cause::StaleVersion });";
    spent_commit_counted_as_a_lost_attempt: "transaction.rs",
        "self.counts[task].spent += 1;"
            => "self.counts[task].spent += 1; self.counts[task].lost += 1;";
    no_of_swap_counted_as_a_lost_attempt: "exchange.rs",
        "self.answer(task, u32::from(answer));"
            => "self.answer(task, u32::from(answer)); self.counts[task].lost += u32::from(!answer);";
    fail_goes_to_commit_without_a_test: "exchange.rs",
        "Statement::FailAfterSave);
        self.status[task] = FAILED;
        self.jobs[task].step = Step::Test;"
            => "Statement::FailAfterSave);
        self.status[task] = FAILED;
        self.jobs[task].step = Step::Commit;";
    clean_leaves_out_the_word_whose_install_failed: "exchange.rs",
        "Statement::FailAfterInstall);
        self.status[task] = FAILED;
        self.jobs[task].exchange.position += 1;"
            => "Statement::FailAfterInstall);
        self.status[task] = FAILED;";
    differing_value_counted_as_a_failed_install: "tally.rs",
        "Event::ExchangeDiffers => self.differed += 1" => "Event::ExchangeDiffers => self.failed += 1";
    failed_install_not_counted_as_tried: "tally.rs",
        "self.tried += 1;
                self.failed += 1;" => "self.failed += 1;";
    // These two show where the limit cuts an exchange off just before its Fail.
    differing_value_seen_in_the_fail: "exact_ticks.rs",
        "Step::Save => tally.differed += u32::from(after.step == Step::FailAfterSave),"
            => "Step::FailAfterSave => tally.differed += 1,";
    failed_install_counted_in_the_fail: "tally.rs",
        "self.failed += 1;
            }"
            => "}
            Statement::FailAfterInstall => self.failed += 1,";
    fetch_not_counted: "tally.rs",
        "Statement::ExchangeFetch => self.fetched += 1," => "";
    // The sum is the same: the state shows a mark.
    mark_in_clean_counted_as_a_fetch: "exchange.rs",
        "observer.statement(self.tick, task, Statement::CleanMark);
        let exchange = &self.jobs[task].exchange;
        let marked = usize::from(exchange.init[exchange.cleaned].task);
        observer.event(self.tick, task, Event::Marks { task: marked });"
            => "observer.statement(self.tick, task, Statement::ExchangeFetch);
        let exchange = &self.jobs[task].exchange;
        let marked = usize::from(exchange.init[exchange.cleaned].task);";
    mark_in_clean_not_told: "exchange.rs",
        "exchange.init[exchange.cleaned].task);
        observer.event(self.tick, task, Event::Marks { task: marked });"
            => "exchange.init[exchange.cleaned].task);";
    mark_told_of_the_marker: "exchange.rs",
        "exchange.init[exchange.position].task);
        observer.event(self.tick, task, Event::Marks { task: marked });"
            => "exchange.init[exchange.position].task);
        observer.event(self.tick, task, Event::Marks { task });";
    ticks_of_other_tasks_counted: "span.rs",
        "self.own_last - self.own_first + 1"
            => "self.last.map_or(self.own_last - self.own_first, |last| last - self.first) + 1";
    six_ticks_for_a_differing_word: "tally.rs",
        "5 * self.differed" => "6 * self.differed";
    the_last_exchange_s_numbers_kept: "history.rs",
        "tally: Tally::default()," => "tally: operation.exchanges.last().map(|one| one.tally).unwrap_or_default(),";
}
