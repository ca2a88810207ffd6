//! Prints ns per tick of the proved engine and of the Rust simulator on the same long sheets, ns per byte of the check and of the
//! builder, and ns per tick on sheets of transactions alone.

use std::hint::black_box;
use std::time::{Duration, Instant};

use simulator::builder::{Builder, Call};
use simulator::compositions::of_sheet;
use simulator::contention::Style;
use simulator::generator::{valid_sheet, SEED};
use simulator::machine::Machine;
use simulator::observer::NoObserver;
use simulator::random::Random;
use simulator::sheet::{self, MAX_BLOCKS, MAX_COMMANDS};
use simulator::write::{begin, block, commit, end, get, put, release, task, Bytes};
use simulator::TOP_LIMIT;

const SHEETS: usize = 6;
const ROUNDS: usize = 200;

fn main() {
    let sheets = long_sheets();
    let mut buffer = vec![0; 8192];
    let mut ratios = Vec::new();
    println!("sheet   ticks  engine ns/tick  simulator ns/tick  ratio");
    for (number, bytes) in sheets.iter().enumerate() {
        let (engine, simulator) = ns_per_tick(&mut buffer, bytes);
        let ratio = engine / simulator;
        ratios.push(ratio);
        println!("{number:>5} {TOP_LIMIT:>7} {engine:>15.2} {simulator:>18.2} {ratio:>6.2}");
    }
    println!("mean ratio {:.2}", ratios.iter().sum::<f64>() / ratios.len() as f64);

    let longest = sheets.iter().max_by_key(|bytes| bytes.len()).expect("there are sheets");
    let (engine, simulator) = best_of_both(
        &mut buffer,
        |_| {
            let _ = black_box(hizgrael::check(black_box(longest)));
        },
        |_| {
            black_box(simulator::check(black_box(longest)));
        },
    );
    let per_byte = |time: Duration| time.as_nanos() as f64 / longest.len() as f64;
    println!(
        "check of {} bytes: engine {:.2} ns/byte, simulator {:.2} ns/byte",
        longest.len(),
        per_byte(engine),
        per_byte(simulator)
    );

    let calls = of_sheet(longest);
    let (engine, simulator) = best_of_both(
        &mut buffer,
        |buffer| {
            let mut state: hizgrael::State = [0; 64];
            for Call { command, operands } in black_box(&calls) {
                let _ = black_box(hizgrael::compose(&mut state, buffer, *command, operands));
            }
        },
        |buffer| {
            let mut builder = Builder::default();
            for call in black_box(&calls) {
                black_box(builder.compose(call, buffer));
            }
        },
    );
    println!(
        "composing of {} bytes, {} commands: engine {:.2} ns/byte, simulator {:.2} ns/byte",
        longest.len(),
        calls.len(),
        per_byte(engine),
        per_byte(simulator)
    );

    println!("transactions      engine ns/tick  simulator ns/tick  ratio");
    for (name, transaction) in transactions() {
        let bytes = sheet_of(&transaction);
        assert!(reaches_the_limit(&bytes));
        let (engine, simulator) = ns_per_tick(&mut buffer, &bytes);
        println!("{name:<16} {engine:>15.2} {simulator:>18.2} {:>6.2}", engine / simulator);
    }
}

/// Engine and simulator, whole calls of a sheet that reaches the limit.
fn ns_per_tick(buffer: &mut [u8], bytes: &[u8]) -> (f64, f64) {
    let (engine, simulator) = best_of_both(
        buffer,
        |buffer| {
            let _ = black_box(hizgrael::run(black_box(bytes), TOP_LIMIT, buffer));
        },
        |buffer| {
            black_box(simulator::run(black_box(bytes), TOP_LIMIT, buffer));
        },
    );
    let per_tick = |time: Duration| time.as_nanos() as f64 / TOP_LIMIT as f64;
    (per_tick(engine), per_tick(simulator))
}

/// One block read, one block PUT, and eight blocks, four of them PUT. Alone they take 16, 24 and 125 ticks, one of which gathers.
fn transactions() -> [(&'static str, Vec<Bytes>); 3] {
    let mut eight = vec![begin()];
    for pair in 0..4 {
        eight.push(put(15 - 4 * pair, 0, 1));
        eight.push(get(1, 4 * pair, 0));
    }
    eight.push(commit());
    [
        ("one block read", vec![begin(), get(1, 7, 0), commit()]),
        ("one block PUT", vec![begin(), put(7, 0, 1), commit()]),
        ("eight blocks", eight),
    ]
}

/// One task with a body of as many such transactions as there may be, released again in the tick in which its job has ended.
fn sheet_of(transaction: &[Bytes]) -> Vec<u8> {
    let blocks = (0..MAX_BLOCKS as u32).map(|number| block(number, [number; 8]));
    let body = transaction.iter().cloned().cycle();
    let body = body.take(MAX_COMMANDS / transaction.len() * transaction.len());
    let front: Vec<Bytes> = blocks.chain([task()]).chain(body).collect();
    let released_at = |ticks: &mut dyn Iterator<Item = u16>| {
        let releases = ticks.map(|tick| release(tick, 0));
        front.iter().cloned().chain(releases).chain([end()]).collect::<Vec<Bytes>>().concat()
    };
    let ticks_of_a_job = ticks_done(&released_at(&mut std::iter::once(0)));
    released_at(&mut (0..TOP_LIMIT as u16).step_by(ticks_of_a_job as usize))
}

/// Long sheets of the generator that reach the limit.
fn long_sheets() -> Vec<Vec<u8>> {
    (0..)
        .map(|index| valid_sheet(&mut Random::new(SEED, index), Style::Long))
        .filter(|bytes| reaches_the_limit(bytes))
        .take(SHEETS)
        .collect()
}

fn reaches_the_limit(bytes: &[u8]) -> bool {
    ticks_done(bytes) == TOP_LIMIT
}

/// None of a sheet that is turned down.
fn ticks_done(bytes: &[u8]) -> u64 {
    sheet::parse(bytes).map_or(0, |parsed| {
        let mut machine = Machine::new(&parsed);
        machine.run(TOP_LIMIT as u32, &mut NoObserver);
        machine.tick.into()
    })
}

/// The shortest of several rounds of each, the two in turn, so that the rest of the computer disturbs both alike.
fn best_of_both(
    buffer: &mut [u8],
    mut first: impl FnMut(&mut [u8]),
    mut second: impl FnMut(&mut [u8]),
) -> (Duration, Duration) {
    let mut best = (Duration::MAX, Duration::MAX);
    for _ in 0..ROUNDS {
        let start = Instant::now();
        first(buffer);
        best.0 = best.0.min(start.elapsed());
        let start = Instant::now();
        second(buffer);
        best.1 = best.1.min(start.elapsed());
    }
    best
}
