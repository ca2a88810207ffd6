//! Test cases by seed and index: a sheet, a tick limit and a buffer, good and bad in fixed shares.

use crate::contention::{self, Style};
use crate::damage;
use crate::machine::Machine;
use crate::observer::{Event, Fate, Observer};
use crate::random::Random;
use crate::{report, sheet, write, TOP_LIMIT};

/// The corpus that the tests use.
pub const SEED: u64 = 0x4869_7A67_7261_656C;
pub const CASES: u64 = 6000;

/// One call of `run`: the buffer has this length and holds the fill byte everywhere.
#[derive(Clone, Debug, PartialEq, Eq)]
pub struct Case {
    pub sheet: Vec<u8>,
    pub limit: u64,
    pub buffer_length: usize,
    pub fill: u8,
}

impl Case {
    pub fn buffer(&self) -> Vec<u8> {
        vec![self.fill; self.buffer_length]
    }
}

/// Where the sheet of a case comes from. Every 33 cases hold each source at least once.
#[derive(Clone, Copy)]
enum Source {
    Valid(Style),
    Cut,
    AlteredBytes,
    AlteredCommands,
    Noise,
    AtCeiling,
    PastCeiling,
    TwoFaults,
}

const SOURCES: [Source; 33] = [
    Source::Valid(Style::Words),
    Source::Valid(Style::Nested),
    Source::Cut,
    Source::Valid(Style::Bursts),
    Source::Valid(Style::Blocks),
    Source::Valid(Style::Attempts),
    Source::AlteredBytes,
    Source::Valid(Style::Mixed),
    Source::Cut,
    Source::Valid(Style::Nested),
    Source::PastCeiling,
    Source::Valid(Style::Bursts),
    Source::Valid(Style::TopVersions),
    Source::Valid(Style::Attempts),
    Source::Noise,
    Source::Valid(Style::Tiny),
    Source::Cut,
    Source::Valid(Style::Words),
    Source::AlteredCommands,
    Source::Valid(Style::Bursts),
    Source::Valid(Style::Blocks),
    Source::TwoFaults,
    Source::Valid(Style::Attempts),
    Source::Valid(Style::Nested),
    Source::Cut,
    Source::Valid(Style::Mixed),
    Source::AtCeiling,
    Source::Valid(Style::Words),
    Source::Valid(Style::Bursts),
    Source::Valid(Style::Attempts),
    Source::AlteredBytes,
    Source::Valid(Style::Tiny),
    Source::Valid(Style::Wide),
];

/// One case in this many has a long sheet instead, which takes far longer to run.
const LONG_EVERY: u64 = 100;

/// The case of this seed and index.
pub fn case(seed: u64, index: u64) -> Case {
    let mut random = Random::new(seed, index);
    let sheet = sheet_of_case(&mut random, seed, index);
    let full_run = measure(&sheet, TOP_LIMIT as u32);
    let limit = limit(&mut random, &full_run);
    let needed = measure(&sheet, limit.min(TOP_LIMIT) as u32).report_length;
    let buffer_length = buffer_length(&mut random, needed);
    Case { sheet, limit, buffer_length, fill: random.pick(&[0x00, 0xAA, 0xFF, 0x0A]) }
}

fn sheet_of_case(random: &mut Random, seed: u64, index: u64) -> Vec<u8> {
    if index % LONG_EVERY == LONG_EVERY - 1 {
        return valid_sheet(random, Style::Long);
    }
    let (round, turn) = (index / SOURCES.len() as u64, (index % SOURCES.len() as u64) as usize);
    match SOURCES[turn] {
        Source::Valid(style) => valid_sheet(random, style),
        Source::Cut => {
            let is_cut = |source: &&Source| matches!(source, Source::Cut);
            let cuts_in_a_round = SOURCES.iter().filter(is_cut).count() as u64;
            let cuts_before = SOURCES[..turn].iter().filter(is_cut).count() as u64;
            damage::cut(seed, round * cuts_in_a_round + cuts_before)
        }
        Source::AlteredBytes => damage::altered_bytes(random),
        Source::AlteredCommands => damage::altered_commands(random),
        Source::Noise => damage::noise(random),
        Source::AtCeiling => in_turn(damage::at_ceilings(0), round),
        Source::PastCeiling => in_turn(damage::at_ceilings(1), round),
        Source::TwoFaults => in_turn(damage::two_faults(), round),
    }
}

fn in_turn(mut sheets: Vec<Vec<u8>>, round: u64) -> Vec<u8> {
    let turn = round as usize % sheets.len();
    sheets.swap_remove(turn)
}

pub fn valid_sheet(random: &mut Random, style: Style) -> Vec<u8> {
    write::sheet(&contention::commands(random, style))
}

#[derive(Default)]
struct Measure {
    ticks: u32,
    report_length: usize,
    /// The ticks before which a release that waited starts.
    starts: Vec<u32>,
    /// The ticks in which an attempt is lost.
    losses: Vec<u32>,
}

impl Observer for Measure {
    fn event(&mut self, tick: u32, _task: usize, event: Event<'_>) {
        if let Event::AttemptLost { .. } = event {
            self.losses.push(tick);
        }
    }

    fn release(&mut self, tick: u32, _task: usize, fate: Fate) {
        if fate == Fate::StartsAfterWaiting {
            self.starts.push(tick);
        }
    }
}

fn measure(bytes: &[u8], limit: u32) -> Measure {
    let mut measure = Measure::default();
    if let Ok(sheet) = sheet::parse(bytes) {
        let mut machine = Machine::new(&sheet);
        machine.run(limit, &mut measure);
        measure.ticks = machine.tick;
        measure.report_length = report::render(&machine).len();
    }
    measure
}

/// Mostly no bound, often one that cuts the run short, also around the start of a release that waited
/// and around a lost attempt, sometimes one that is turned down.
fn limit(random: &mut Random, full_run: &Measure) -> u64 {
    let Measure { starts, losses, .. } = full_run;
    match random.below(20) {
        0 => random.pick(&[0, 0, 1, 2]),
        1 => random.pick(&[65_536, 65_537, 100_000, u64::from(u32::MAX)]),
        2 => TOP_LIMIT - 1,
        3..=9 => random.below(full_run.ticks as usize + 1) as u64,
        10..=12 if !starts.is_empty() => (random.pick(starts) + random.below(2) as u32).into(),
        13..=15 if !losses.is_empty() => (random.pick(losses) + random.below(4) as u32).into(),
        _ => TOP_LIMIT,
    }
}

fn buffer_length(random: &mut Random, needed: usize) -> usize {
    match random.below(20) {
        0 => 0,
        1 => needed.saturating_sub(1),
        2 => random.below(needed + 1),
        3..=9 => needed,
        10..=15 => needed + random.within(1, 16),
        _ => needed + 100,
    }
}
