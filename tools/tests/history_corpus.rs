//! The table of operations: what holds of every run of the corpus.

#[path = "common/operations.rs"]
mod operations;
#[path = "common/tables.rs"]
mod tables;

use operations::{rows_with, shown, ALL, ALONE, EXCHANGE};
use simulator::generator::{case, SEED};
use simulator::sheet::parse;
use tables::{json, Json};
use tools::history;
use tools::names::Names;

/// The columns of numbers, alike in both forms.
const NUMBERS: [&str; 8] = [
    "number",
    "task",
    "first_tick",
    "last_tick",
    "own_ticks",
    "commit_tick",
    "order",
    "order_tick",
];

/// The good sheets of the corpus with their own limits, some of which cut operations off.
#[test]
fn what_holds_of_every_table() {
    let (mut seen, mut cut_off, mut lost, mut spent) = (0, 0, 0, 0);
    let mut exchanges = Exchanges::default();
    for index in 0..600 {
        let case = case(SEED, index);
        let Ok(limit) = u32::try_from(case.limit) else { continue };
        if parse(&case.sheet).is_err() || limit > ALL {
            continue;
        }
        let found = rows_with(&case.sheet, limit, &Names::default());
        assert_holds(&found);
        let table = json(&history::json(&case.sheet, limit, &Names::default(), &ALONE).unwrap());
        let operations = table.field("operations").list();
        assert_eq!(operations.len(), found.len());
        for (operation, row) in operations.iter().zip(&found) {
            let numbers = NUMBERS.map(|column| operation.field(column).shown()).join("|");
            assert_eq!(numbers, shown(row, &NUMBERS));
            let words = ["operation", "outcome"];
            assert_eq!(
                words.map(|column| operation.field(column).text()).join("|"),
                shown(row, &words)
            );
            exchanges.take(operation, row);
        }
        let count =
            |outcome| found.iter().filter(|row| shown(row, &["outcome"]) == outcome).count();
        seen += found.len();
        cut_off += count("cut off");
        spent += count("spent");
        lost += found.iter().filter(|row| !shown(row, &["lost_attempts"]).is_empty()).count();
    }
    assert!(
        seen > 1000 && cut_off > 50 && lost > 50 && spent > 20,
        "{seen} {cut_off} {lost} {spent}"
    );
    assert!(exchanges.are_enough(), "{exchanges:?}");
}

/// The order is 1 to n without a gap and rises by its tick, which lies inside the operation; what is cut off has no last
/// tick, and a place only after its commit.
fn assert_holds(rows: &[Vec<String>]) {
    let mut order: Vec<(usize, u32)> = Vec::new();
    for (index, row) in rows.iter().enumerate() {
        let number = |column| shown(row, &[column]).parse::<u32>().ok();
        assert_eq!(number("number"), Some(index as u32));
        let (first, last) = (number("first_tick").unwrap(), number("last_tick"));
        let outcome = shown(row, &["outcome"]);
        assert_eq!(last.is_none(), outcome == "cut off");
        assert_eq!(number("order").is_some(), number("order_tick").is_some());
        if let (Some(place), Some(tick)) = (number("order"), number("order_tick")) {
            assert!(first <= tick && last.is_none_or(|last| tick <= last), "{row:?}");
            assert!(last.is_some() || number("commit_tick") == Some(tick), "{row:?}");
            order.push((place as usize, tick));
        } else {
            assert!(outcome == "spent" || outcome == "cut off", "{row:?}");
        }
        if let Some(last) = last {
            assert!((1..=last - first + 1).contains(&number("own_ticks").unwrap()), "{row:?}");
        }
    }
    order.sort_unstable();
    assert!(order.iter().map(|place| place.0).eq(1..=order.len()));
    assert!(order.windows(2).all(|pair| pair[0].1 < pair[1].1));
}

/// How many exchanges were seen: ended, cut off, of operations with several, and with each of the five numbers.
#[derive(Debug, Default)]
struct Exchanges {
    ended: usize,
    cut_off: usize,
    of_several: usize,
    with: [usize; 5],
}

impl Exchanges {
    /// Change 7, and that both forms say the same of each exchange.
    fn take(&mut self, operation: &Json, row: &[String]) {
        let exchanges = operation.field("exchanges").list();
        assert_eq!(in_csv(row), exchanges.iter().map(numbers_of).collect::<Vec<_>>());
        assert_fits_its_row(exchanges, row);
        self.of_several += if exchanges.len() > 1 { exchanges.len() } else { 0 };
        for exchange in exchanges {
            if exchange.field("last_tick") == &Json::Null {
                self.cut_off += 1;
                continue;
            }
            assert_exact_ticks(exchange);
            self.ended += 1;
            for (with, number) in self.with.iter_mut().zip(&numbers_of(exchange)[1..]) {
                *with += usize::from(*number > 0);
            }
        }
    }

    fn are_enough(&self) -> bool {
        let each = self.with.iter().all(|with| *with > 20);
        self.ended > 500 && self.cut_off > 20 && self.of_several > 20 && each
    }
}

/// Own ticks and the five numbers of each exchange.
fn in_csv(row: &[String]) -> Vec<[u32; 6]> {
    let columns = EXCHANGE.map(|column| {
        let list = shown(row, &[column]);
        let numbers = list.split("; ").filter(|number| !number.is_empty());
        numbers.map(|number| number.parse().unwrap()).collect::<Vec<u32>>()
    });
    assert!(columns.iter().all(|column| column.len() == columns[0].len()), "{row:?}");
    (0..columns[0].len()).map(|index| columns.each_ref().map(|column| column[index])).collect()
}

fn number(exchange: &Json, key: &str) -> u32 {
    exchange.field(key).shown().parse().unwrap()
}

fn numbers_of(exchange: &Json) -> [u32; 6] {
    ["own_ticks", "tried", "differed", "fetched", "marked", "failed"]
        .map(|key| number(exchange, key))
}

/// A READ has none and a SWAP one, which is all of it. Each rejected commit is an exchange of the transaction that said no.
fn assert_fits_its_row(exchanges: &[Json], row: &[String]) {
    let says = |answer: &str| {
        let ended = exchanges.iter().filter(|one| one.field("last_tick") != &Json::Null);
        ended.filter(|one| one.field("answer").text() == answer).count()
    };
    let outcome = shown(row, &["outcome"]);
    match shown(row, &["operation"]).as_str() {
        "READ" => assert!(exchanges.is_empty()),
        "SWAP" => {
            assert_eq!(exchanges.len(), 1);
            let ticks = ["first_tick", "last_tick", "own_ticks"];
            let own = ticks.map(|key| exchanges[0].field(key).shown()).join("|");
            assert_eq!(own, shown(row, &ticks));
            assert_eq!((says("yes") == 1, says("no") == 1), (outcome == "yes", outcome == "no"));
        }
        _ => {
            let lost = shown(row, &["lost_attempts"]);
            assert_eq!(says("no"), lost.matches("rejected commit").count());
            assert!(says("yes") <= usize::from(outcome == "committed"), "{row:?}");
        }
    }
}

fn assert_exact_ticks(exchange: &Json) {
    let [own, tried, differed, fetched, marked, failed] = numbers_of(exchange);
    assert_eq!(own, 3 + 6 * tried + 5 * differed + fetched + marked + failed, "{exchange:?}");
    let words = number(exchange, "words");
    assert!(tried + differed <= words && differed + failed <= 1, "{exchange:?}");
    assert!(own <= 9 * words + 4, "{exchange:?}");
    if exchange.field("answer").text() == "yes" {
        assert_eq!((tried, differed, failed), (words, 0, 0), "{exchange:?}");
    }
}
