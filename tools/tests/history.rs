//! The table of operations: rows worked out by hand from the documents.

#[path = "common/operations.rs"]
mod operations;
#[path = "common/tables.rs"]
mod tables;

use operations::{rows_with, shown, ALL, ALONE, EXCHANGE};
use simulator::observer::NoObserver;
use simulator::run_observed;
use tables::{csv_rows, json, Json};
use tools::encode::encode;
use tools::examples::folder;
use tools::history::{self, COLUMNS};
use tools::names::Names;
use tools::recording::subject::Subject;
use tools::source::Source;

fn example(name: &str) -> Vec<u8> {
    std::fs::read(folder().join(format!("{name}.sheet"))).unwrap()
}

fn names(texts: &[&str]) -> Names {
    let mut names = Names::default();
    texts.iter().for_each(|text| names.add(text).unwrap());
    names
}

fn rows(name: &str, limit: u32) -> Vec<Vec<String>> {
    rows_with(&example(name), limit, &Names::default())
}

/// The ticks are those that P5's text names. t1 is put in the order by its Load of w1, which differs: 22, before t0's 30.
/// t0's exchange tries w0. t1's fetches w0, Marks t0, tries w0 and stops at w1.
#[test]
fn p5_row_by_row() {
    let mut names = names(&["t1=upper"]);
    names.set(Subject::Word(1), "valve, left");
    let found = rows_with(&example("worked/p5"), ALL, &names);
    let lower = "0|0||SWAP|3|31|9|w0: 12 -> 5|0|no||30|2|30|9|1|0|0|0|0";
    let upper =
        "1|1|upper|SWAP|13|28|16|w0: 12 -> 7; w1 valve, left: 0 -> 7|0|no||27|1|22|16|1|1|1|1|0";
    let found: Vec<String> = found.iter().map(|row| row.join("|")).collect();
    assert_eq!(found, [lower, upper]);
}

/// Worked out statement by statement from the sheet's text; the report's T lines have the same ticks.
#[test]
fn the_cold_room_row_by_row() {
    let found = rows("cold-room", ALL);
    let columns = [
        "task",
        "operation",
        "first_tick",
        "last_tick",
        "own_ticks",
        "answers",
        "commit_tick",
        "order",
    ];
    let found: Vec<String> = found.iter().map(|row| shown(row, &columns)).collect();
    let expected = [
        "0|TRANSACTION|0|236|52|31; 31|234|21",
        "1|SWAP|9|118|15|1|116|12",
        "4|READ|17|19|3|1||1",
        "4|READ|20|21|2|0||2",
        "4|READ|22|23|2|1||3",
        "4|READ|24|25|2|0||4",
        "4|SWAP|30|57|28|1|53|5",
        "4|READ|58|60|3|1||6",
        "4|READ|61|62|2|0||7",
        "4|READ|63|64|2|1||8",
        "4|READ|65|66|2|0||9",
        "4|SWAP|71|98|28|1|94|10",
        "2|SWAP|103|111|9|0|111|11",
        "2|SWAP|134|201|15|1|146|13",
        "4|READ|147|148|2|2||14",
        "4|READ|149|150|2|1||15",
        "4|READ|151|152|2|0||16",
        "4|READ|153|154|2|0||17",
        "4|SWAP|159|185|27|1|181|18",
        "3|READ|186|187|2|2552||19",
        "3|SWAP|191|199|9|1|198|20",
        "4|READ|240|241|2|2||22",
        "4|READ|242|243|2|1||23",
        "4|READ|244|245|2|0||24",
        "4|READ|246|247|2|0||25",
        "4|SWAP|252|278|27|1|274|26",
    ];
    assert_eq!(found, expected);
}

/// The move's three lost attempts, and what each transaction was fed and got.
#[test]
fn the_contended_transactions_row_by_row() {
    let found = rows("contended-transaction", ALL);
    let columns = [
        "task",
        "first_tick",
        "last_tick",
        "own_ticks",
        "answers",
        "outcome",
        "commit_tick",
        "order",
        "order_tick",
    ];
    let ticks: Vec<String> = found.iter().map(|row| shown(row, &columns)).collect();
    let expected = [
        "0|2|294|174|514; 1300|committed|292|4|292",
        "1|14|46|33|500; 0|committed|45|1|45",
        "2|104|145|42|507; 300|committed|143|2|143",
        "1|202|240|39|507; 1|committed|239|3|239",
    ];
    assert_eq!(ticks, expected);
    let lost = "59 stale version; 153 rejected commit; 244 rejected commit";
    assert_eq!(shown(&found[0], &["lost_attempts"]), lost);
    assert!(found[1..].iter().all(|row| shown(row, &["lost_attempts"]).is_empty()));
    let arguments =
        "registers 0 0 0 0 0 0 4294967246 50; GET r1 b0 at 0; GET r2 b1 at 0; ADD r1 r6; \
                     ADD r2 r7; PUT b0 at 0 from r1; PUT b1 at 0 from r2";
    assert_eq!(shown(&found[0], &["arguments"]), arguments);
}

/// The move again, cut off after its Commit, before it, after a rejected one, and after the attempt was lost.
#[test]
fn what_the_limit_cuts_off() {
    let columns = ["last_tick", "own_ticks", "outcome", "commit_tick", "order", "order_tick"];
    let moved = |limit| shown(&rows("contended-transaction", limit)[0], &columns);
    assert_eq!(moved(293), "|172|cut off|292|4|292");
    assert_eq!(moved(292), "|171|cut off|||");
    // Its ticks are 2 to 11, 47 to 102, 146 to 199, 241 and 242: 10, 56, 54 and 2.
    assert_eq!(moved(243), "|122|cut off|242||");
    assert_eq!(moved(245), "|124|cut off|||");
    // A READ that has only loaded its word.
    let read = &rows("worked/p7-at-9", 10)[1];
    let columns =
        ["operation", "first_tick", "last_tick", "own_ticks", "answers", "outcome", "order"];
    assert_eq!(shown(read, &columns), "READ|9||1||cut off|");
    assert_eq!(rows("cold-room", 0), Vec::<Vec<String>>::new());
}

/// P10: 20 ticks. It stands in no order, and comes to no exchange.
#[test]
fn a_spent_transaction() {
    let found = rows("worked/p10", ALL);
    let columns =
        ["first_tick", "last_tick", "own_ticks", "outcome", "commit_tick", "order", "order_tick"];
    assert_eq!(shown(&found[0], &columns), "0|19|20|spent|||");
    assert_eq!(shown(&found[0], &EXCHANGE), "|||||");
}

#[test]
fn json_has_the_same_rows() {
    let source = Source::Compared { version: "0.7.0".to_string() };
    let mut names = names(&["b1=room-2"]);
    names.set(Subject::Task(0), "move \"50\" \\ back");
    let sheet = example("contended-transaction");
    let table = json(&history::json(&sheet, 293, &names, &source).unwrap());
    assert_eq!(table.field("program").text(), "hizgrael");
    assert_eq!(table.field("source").text(), source.sentence());
    assert_eq!(table.field("limit"), &Json::Number(293));
    assert_eq!(table.field("ticks"), &Json::Number(293));
    let report = run_observed(&sheet, 293, &mut NoObserver).unwrap();
    assert_eq!(table.field("report").text(), report);
    let operations = table.field("operations").list();
    assert_eq!(operations.len(), 4);
    let moved = &operations[0];
    assert_eq!(moved.field("task_name").text(), "move \"50\" \\ back");
    assert_eq!(moved.field("last_tick"), &Json::Null);
    let lost: Vec<String> = moved.field("lost_attempts").list().iter().map(lost_attempt).collect();
    assert_eq!(lost, ["59 stale version", "153 rejected commit", "244 rejected commit"]);
    let commands = moved.field("arguments").field("commands").list();
    let last = commands.last().unwrap();
    assert_eq!((commands.len(), last.field("command").text()), (6, "PUT"));
    assert_eq!(commands[2].field("command").text(), "ADD");
    assert_eq!(commands[2].field("other"), &Json::Number(6));
    assert_eq!(last.field("name").text(), "room-2");
    assert_eq!(last.field("register"), &Json::Number(2));
    let answers: Vec<String> = moved.field("answers").list().iter().map(Json::shown).collect();
    assert_eq!(answers, ["514", "1300"]);
}

fn lost_attempt(attempt: &Json) -> String {
    format!("{} {}", attempt.field("tick").shown(), attempt.field("cause").text())
}

#[test]
fn json_of_reads_and_swaps() {
    let table = history::json(&example("worked/p5"), ALL, &names(&["w1=valve"]), &ALONE).unwrap();
    let table = json(&table);
    assert!(table.field("source").text().starts_with("NOT PROVED"));
    let pairs = table.field("operations").list()[1].field("arguments").field("pairs").list();
    let fields = |pair: &Json| ["word", "old", "new"].map(|key| pair.field(key).shown()).join(" ");
    assert_eq!(pairs.iter().map(fields).collect::<Vec<_>>(), ["0 12 7", "1 0 7"]);
    assert_eq!((pairs[0].field("name"), pairs[1].field("name").text()), (&Json::Null, "valve"));
    let table =
        json(&history::json(&example("worked/p7-at-9"), ALL, &Names::default(), &ALONE).unwrap());
    let read = &table.field("operations").list()[1];
    assert_eq!(read.field("arguments").field("word"), &Json::Number(0));
    assert_eq!(read.field("answers").list(), [Json::Number(12)]);
    let empty = json(&history::json(&example("cold-room"), 0, &Names::default(), &ALONE).unwrap());
    assert!(empty.field("operations").list().is_empty());
}

/// In the order of the table, from left to right.
#[test]
fn the_manual_has_every_column() {
    let manual = include_str!("../../docs/PROGRAM.md");
    let (_, table) = manual.split_once("\n| Column | |\n|---|---|\n").unwrap();
    let rows = table.lines().take_while(|line| line.starts_with('|'));
    let named = rows.flat_map(|row| row.split('|').nth(1).unwrap().split(','));
    assert_eq!(named.map(|name| name.trim_matches([' ', '`'])).collect::<Vec<_>>(), COLUMNS);
}

#[test]
fn every_line_says_where_it_comes_from() {
    let source = Source::Compared { version: "0.7.0".to_string() };
    let found =
        csv_rows(&history::csv(&example("worked/p5"), ALL, &Names::default(), &source).unwrap());
    assert!(found[1..].iter().all(|row| row.last().unwrap() == "compared with hizgrael 0.7.0"));
}

#[test]
fn what_has_no_history_is_refused() {
    let refusal = |sheet: &[u8], limit, names: &[&str]| {
        let names = self::names(names);
        let csv = history::csv(sheet, limit, &names, &ALONE).unwrap_err();
        assert_eq!(history::json(sheet, limit, &names, &ALONE).unwrap_err(), csv);
        csv
    };
    assert_eq!(refusal(&[0xFF], ALL, &[]), "refused: X 1 0");
    assert_eq!(refusal(&example("worked/p5"), ALL + 1, &[]), "refused: X 9 0");
    let nobody = "there is no task t2, the sheet has 2 (t0 to t1)";
    assert_eq!(refusal(&example("worked/p5"), ALL, &["t2=nobody"]), nobody);
}

/// A transaction that touches nothing commits in its COMMIT: BEGIN in tick 0, LOAD in 1, COMMIT in 2.
#[test]
fn a_transaction_that_touches_nothing() {
    let sheet = encode("TASK\nBEGIN\nLOAD r0 5\nCOMMIT\nRELEASE 0 t0\nEND").unwrap().bytes;
    let found = rows_with(&sheet, ALL, &Names::default());
    let row = "0|0||TRANSACTION|0|2|3|registers 0 0 0 0 0 0 0 0; LOAD r0 5||committed||2|1|2||||||";
    assert_eq!(found[0].join("|"), row);
}
