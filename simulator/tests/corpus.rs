//! The generator's corpus: coverage, demand 3 and the rates, buffers, and no panic on noise.

use simulator::contention::Style;
use simulator::coverage::Coverage;
use simulator::generator::{case, valid_sheet, CASES, SEED};
use simulator::plain::whole_operations;
use simulator::random::Random;
use simulator::{check, run, run_observed};

#[test]
fn every_refusal_statement_outcome_wait_drop_loss_touched_and_tally_kind_is_covered() {
    let mut coverage = Coverage::new();
    for index in 0..CASES {
        coverage.take(&case(SEED, index));
    }
    print!("{coverage}");
    for (name, count) in coverage.rows() {
        assert!(count > 0, "{name} is not covered");
    }
}

#[test]
fn demand_3_and_the_rates_hold() {
    for index in 0..CASES {
        let case = case(SEED, index);
        if let Err(fault) = whole_operations(&case.sheet, case.limit) {
            panic!("case {index}: {fault}");
        }
    }
}

/// Small contended sheets, cut short after every tick.
#[test]
fn demand_3_holds_after_every_tick() {
    for index in 0..80 {
        let style = Style::SHORT[index as usize % Style::SHORT.len()];
        let sheet = valid_sheet(&mut Random::new(SEED, index), style);
        for limit in 0..400 {
            if let Err(fault) = whole_operations(&sheet, limit) {
                panic!("sheet {index}, limit {limit}: {fault}");
            }
        }
    }
}

/// The generator's valid sheets are accepted. Cut anywhere, they end too early and nothing else.
#[test]
fn valid_sheets_and_their_cuts() {
    let styles = [&Style::SHORT[..], &[Style::Long]].concat();
    for index in 0..180 {
        let style = styles[index as usize % styles.len()];
        let sheet = valid_sheet(&mut Random::new(SEED, index), style);
        assert_eq!(check(&sheet).number, 0, "{style:?} {index}");
        let mut place = 0;
        for length in 0..sheet.len() {
            let answer = check(&sheet[..length]);
            assert_eq!(answer.number, 2, "{style:?} {index} cut to {length}");
            assert!(place <= answer.place && answer.place <= length);
            place = answer.place;
        }
    }
}

/// A refusal leaves the buffer as it is; a report changes its own bytes only.
#[test]
fn buffers() {
    for index in 0..CASES {
        let case = case(SEED, index);
        let mut buffer = case.buffer();
        let answer = run(&case.sheet, case.limit, &mut buffer);
        let fault = check(&case.sheet);
        if answer.number == 0 {
            let report =
                run_observed(&case.sheet, case.limit, &mut simulator::observer::NoObserver);
            assert_eq!(buffer[..answer.place], *report.unwrap().as_bytes());
            assert!(buffer[answer.place..].iter().all(|&byte| byte == case.fill));
        } else {
            assert_eq!(buffer, case.buffer());
        }
        match answer.number {
            1..=8 => assert_eq!(answer, fault),
            9 => assert!(fault.number == 0 && answer.place == 0 && case.limit > 65_535),
            10 => assert!(fault.number == 0 && answer.place > case.buffer_length),
            _ => assert!(fault.number == 0 && answer.place <= case.buffer_length),
        }
    }
}

/// Bytes of any kind, and sheets cut and extended with them, never panic.
#[test]
fn noise() {
    let mut buffer = [0; 512];
    for index in 0..20_000 {
        let mut random = Random::new(SEED ^ 1, index);
        let mut bytes = Vec::new();
        if random.percent(50) {
            bytes = valid_sheet(&mut random, Style::Tiny);
            bytes.truncate(random.below(bytes.len() + 1));
        }
        for _ in 0..random.below(40) {
            bytes.push(random.next_number() as u8);
        }
        let answer = run(&bytes, random.next_number() % 70_000, &mut buffer);
        assert!(answer.number <= 10);
    }
}

#[test]
fn a_seed_gives_the_same_cases() {
    for index in 0..200 {
        assert_eq!(case(SEED, index), case(SEED, index));
    }
    assert!((0..200).any(|index| case(SEED, index) != case(SEED + 1, index)));
}
