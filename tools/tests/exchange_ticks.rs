//! The exchanges in the table of operations: the ticks of their own and what they counted, worked out by hand from the
//! documents.

#[path = "common/operations.rs"]
mod operations;
#[path = "common/tables.rs"]
mod tables;

use operations::{rows_with, shown, ALL, ALONE, EXCHANGE};
use tables::{json, Json};
use tools::encode::encode;
use tools::examples::folder;
use tools::history;
use tools::names::Names;

fn example(name: &str) -> Vec<u8> {
    std::fs::read(folder().join(format!("{name}.sheet"))).unwrap()
}

/// Of each row whose it is, from when to when, and its exchanges.
fn exchanges(sheet: &[u8], limit: u32) -> Vec<String> {
    let columns = [&["task", "first_tick", "last_tick"], &EXCHANGE[..]].concat();
    let rows = rows_with(sheet, limit, &Names::default());
    rows.iter().map(|row| shown(row, &columns)).collect()
}

/// Their texts name every tick. Sheet A's 9 are Start, Test, Load, Look, Save, Install, Test, Commit, Clean.
#[test]
fn the_worked_swaps() {
    assert_eq!(exchanges(&example("worked/sheet-a"), ALL), ["0|3|11|9|1|0|0|0|0"]);
    // t1 fetches the old value and Marks t0: two more.
    let p3 = ["0|3|25|9|1|0|0|0|0", "1|12|22|11|1|0|1|1|0"];
    assert_eq!(exchanges(&example("worked/p3"), ALL), p3);
    // t1 finds 5, tries nothing and Fails: Start, Test, Load, Look, Save, Fail, Test, Commit.
    let p4 = ["0|3|22|9|1|0|0|0|0", "1|14|21|8|0|1|0|0|0"];
    assert_eq!(exchanges(&example("worked/p4"), ALL), p4);
    // Cut off before that Save in tick 18, after it and after the Fail: differed is counted in the Save.
    let cut_off = |limit| exchanges(&example("worked/p4"), limit)[1].clone();
    assert_eq!(cut_off(18), "1|14||4|0|0|0|0|0");
    assert_eq!(cut_off(19), "1|14||5|0|1|0|0|0");
    assert_eq!(cut_off(20), "1|14||6|0|1|0|0|0");
    // A READ has no exchange.
    assert_eq!(exchanges(&example("worked/p7-at-9"), ALL), ["0|3|14|9|1|0|0|0|0", "1|9|11||||||"]);
}

/// P3's rival one tick earlier, after t0's Save in tick 7. t1: 8 and 9 LOAD, 10 PAIR, 11 Start, 12 Test, 13 Load, 14 Look,
/// 15 Save, 16 Install, 17 Test, 18 Commit, 19 Clean. t0: 20 Install (no longer init), 21 Fail, 22 Test, 23 Commit, 24 Clean.
#[test]
fn an_install_that_fails() {
    let text = String::from_utf8(std::fs::read(folder().join("worked/p3.txt")).unwrap()).unwrap();
    let sheet = encode(&text.replace("RELEASE 9 t1", "RELEASE 8 t1")).unwrap().bytes;
    assert_eq!(exchanges(&sheet, ALL), ["0|3|24|10|1|0|0|0|1", "1|11|19|9|1|0|0|0|0"]);
    // Cut off before the Install, after it and after the Fail: tried and failed are counted in the Install.
    assert_eq!(exchanges(&sheet, 20)[0], "0|3||5|0|0|0|0|0");
    assert_eq!(exchanges(&sheet, 21), ["0|3||6|1|0|0|0|1", "1|11|19|9|1|0|0|0|0"]);
    assert_eq!(exchanges(&sheet, 22)[0], "0|3||7|1|0|0|0|1");
}

/// t0 is sheet A's, up to Install in tick 8. t1 exchanges 12 for itself: 9 LOAD, 10 PAIR, 11 Start, 12 Test, 13 Load, 14 Look,
/// 15 Fetch, 16 Save, 17 Install (old is new: no Mark). t2 is P3's t1: 18 and 19 LOAD, 20 PAIR, 21 Start, 22 Test, 23 Load,
/// 24 Look, 25 Fetch, 26 Save, 27 Mark t1, 28 Install, 29 Test, 30 Commit, 31 Clean. t1: 32 Test, 33 Commit (no), 34 Clean
/// (not as installed, and it was overlapped), 35 Mark t0. t0: 36 Test, 37 Commit (no), 38 Clean.
#[test]
fn a_mark_in_clean() {
    let sheet = "WORD 12\n\
                 TASK\nLOAD r1 12\nLOAD r2 5\nPAIR w0 r1 r2\nSWAP r0\n\
                 TASK\nLOAD r1 12\nPAIR w0 r1 r1\nSWAP r0\n\
                 TASK\nLOAD r1 12\nLOAD r2 7\nPAIR w0 r1 r2\nSWAP r0\n\
                 RELEASE 0 t0\nRELEASE 9 t1\nRELEASE 18 t2\nEND\n";
    let sheet = encode(sheet).unwrap().bytes;
    let whole = ["0|3|38|9|1|0|0|0|0", "1|11|35|11|1|0|1|1|0", "2|21|31|11|1|0|1|1|0"];
    assert_eq!(exchanges(&sheet, ALL), whole);
    // Before that Mark.
    assert_eq!(exchanges(&sheet, 35)[1], "1|11||10|1|0|1|0|0");
}

/// The sheet's comments say who interrupts whom. The guard changes nothing, so it Marks nobody; while the hand-over has
/// compressor-1 installed, the guard (twice) and the defrost fetch its value. The defrost's first finds the compressor on.
#[test]
fn the_cold_room() {
    let found = exchanges(&example("cold-room"), ALL);
    let expected = [
        "0|0|236|15|2|0|0|0|0",
        "1|9|118|15|2|0|0|0|0",
        "4|30|57|28|4|0|1|0|0",
        "4|71|98|28|4|0|1|0|0",
        "2|103|111|9|0|1|1|0|0",
        "2|134|201|15|2|0|0|0|0",
        "4|159|185|27|4|0|0|0|0",
        "3|191|199|9|1|0|0|0|0",
        "4|252|278|27|4|0|0|0|0",
    ];
    let (reads, others): (Vec<String>, Vec<String>) =
        found.into_iter().partition(|row| row.ends_with("||||||"));
    assert_eq!(others, expected);
    assert_eq!(reads.len(), 17);
}

/// The move loses its first COMMIT's exchange, in ticks 95 to 102 and 146 to 153, to the grant: b1 is loaded in 102, and its
/// Install in 148 finds another word. It loses the second, 189 to 199 and 241 to 244, to the raise, which fetches b0 and Marks
/// it. The third is alone, 280 to 294. The grant only reads b0: it fetches it and does not Mark.
#[test]
fn the_contended_transactions() {
    let sheet = example("contended-transaction");
    let expected = [
        "0|2|294|16; 15; 15|2; 2; 2|0; 0; 0|0; 0; 0|0; 0; 0|1; 0; 0",
        "1|14|46|9|1|0|0|0|0",
        "2|104|145|16|2|0|1|0|0",
        "1|202|240|11|1|0|1|1|0",
    ];
    assert_eq!(exchanges(&sheet, ALL), expected);
    // Cut off: in the third after its Commit in 292, just after the second, after the Commit of the second in 242, after the
    // first word of the first, just before the first.
    let moved = |limit| exchanges(&sheet, limit)[0].clone();
    assert_eq!(moved(293), "0|2||16; 15; 13|2; 2; 2|0; 0; 0|0; 0; 0|0; 0; 0|1; 0; 0");
    assert_eq!(moved(245), "0|2||16; 15|2; 2|0; 0|0; 0|0; 0|1; 0");
    assert_eq!(moved(243), "0|2||16; 13|2; 2|0; 0|0; 0|0; 0|1; 0");
    assert_eq!(moved(101), "0|2||6|1|0|0|0|0");
    assert_eq!(moved(95), "0|2|||||||");
}

/// First and last tick, own ticks, words, answer and what was counted, of the exchanges of one operation.
fn json_exchanges(sheet: &[u8], limit: u32, operation: usize) -> Vec<String> {
    let table = json(&history::json(sheet, limit, &Names::default(), &ALONE).unwrap());
    let exchanges = table.field("operations").list()[operation].field("exchanges").list();
    exchanges.iter().map(json_exchange).collect()
}

fn json_exchange(exchange: &Json) -> String {
    let numbers = |keys: &[&str]| -> Vec<String> {
        keys.iter().map(|key| exchange.field(key).shown()).collect()
    };
    let answer = match exchange.field("answer") {
        Json::Null => String::new(),
        answer => answer.text().to_string(),
    };
    let front = numbers(&["first_tick", "last_tick", "own_ticks", "words"]);
    [front, vec![answer], numbers(&EXCHANGE[1..])].concat().join("|")
}

/// As above, with the ticks and the answer of each exchange.
#[test]
fn json_tells_each_exchange() {
    let sheet = example("contended-transaction");
    let moved =
        ["95|153|16|2|no|2|0|0|0|1", "189|244|15|2|no|2|0|0|0|0", "280|294|15|2|yes|2|0|0|0|0"];
    assert_eq!(json_exchanges(&sheet, ALL, 0), moved);
    // An answer is there from the Commit on.
    assert_eq!(json_exchanges(&sheet, 293, 0)[2], "280||13|2|yes|2|0|0|0|0");
    assert_eq!(json_exchanges(&sheet, 292, 0)[2], "280||12|2||2|0|0|0|0");
    assert_eq!(json_exchanges(&sheet, 95, 0), [""; 0]);
    assert_eq!(json_exchanges(&example("worked/p4"), ALL, 1), ["14|21|8|1|no|0|1|0|0|0"]);
    assert_eq!(json_exchanges(&example("worked/p5"), ALL, 1), ["13|28|16|2|no|1|1|1|1|0"]);
    assert_eq!(json_exchanges(&example("worked/p7-at-9"), ALL, 1), [""; 0]);
}
