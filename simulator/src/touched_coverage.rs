//! What a corpus covers of the blocks that COMMITs find touched: how many, which, touched in which
//! order, and which of them makes a COMMIT spent.

use crate::machine::Machine;
use crate::observer::{Cause, Event, Observer, Statement};
use crate::sheet::{Sheet, MAX_BLOCKS, MAX_TASKS, TOP_VERSION};

#[derive(Clone, Copy, Debug, PartialEq, Eq)]
enum TouchedKind {
    None,
    One,
    Two,
    ThreeToSeven,
    Eight,
    LowestAbove0,
    Block15,
    Block15Alone,
    Blocks0And15,
    /// A block that is not touched lies between two that are.
    Gap,
    NotInRisingOrder,
    /// One at the last version that is only read: the COMMIT is not spent.
    LastVersionOnlyRead,
    /// Three or more are touched, and the exchange answers no.
    RejectedOfThree,
    /// Several are touched, and the one PUT at the last version is the highest of them.
    SpentByTheHighest,
    /// The same, and it is block 15.
    SpentByBlock15,
    /// Several are touched, one below the highest is PUT at the last version, the highest is not.
    SpentByALowerOne,
}

const TOUCHED_KINDS: [TouchedKind; 16] = [
    TouchedKind::None,
    TouchedKind::One,
    TouchedKind::Two,
    TouchedKind::ThreeToSeven,
    TouchedKind::Eight,
    TouchedKind::LowestAbove0,
    TouchedKind::Block15,
    TouchedKind::Block15Alone,
    TouchedKind::Blocks0And15,
    TouchedKind::Gap,
    TouchedKind::NotInRisingOrder,
    TouchedKind::LastVersionOnlyRead,
    TouchedKind::RejectedOfThree,
    TouchedKind::SpentByTheHighest,
    TouchedKind::SpentByBlock15,
    TouchedKind::SpentByALowerOne,
];

const HIGHEST: u8 = MAX_BLOCKS as u8 - 1;

#[derive(Default)]
pub struct TouchedCoverage {
    /// The COMMITs of the kind, each counted in its first tick.
    counts: [u64; TOUCHED_KINDS.len()],
}

impl TouchedCoverage {
    /// Runs the sheet and counts its COMMITs.
    pub fn take(&mut self, sheet: &Sheet, limit: u32) {
        let mut machine = Machine::new(sheet);
        machine.run(limit, &mut Follower { coverage: self, touched: Default::default() });
    }

    pub fn rows(&self) -> impl Iterator<Item = (String, u64)> + '_ {
        let name = |kind| format!("COMMIT touched {kind:?}");
        TOUCHED_KINDS.iter().map(move |kind| (name(kind), self.counts[*kind as usize]))
    }

    fn count(&mut self, kind: TouchedKind, holds: bool) {
        self.counts[kind as usize] += u64::from(holds);
    }

    fn take_commit(&mut self, touched: &[Touched]) {
        let blocks: Vec<u8> = touched.iter().map(|one| one.block).collect();
        let mut rising = blocks.clone();
        rising.sort_unstable();
        let kind = match rising.len() {
            0 => TouchedKind::None,
            1 => TouchedKind::One,
            2 => TouchedKind::Two,
            3..=7 => TouchedKind::ThreeToSeven,
            _ => TouchedKind::Eight,
        };
        self.count(kind, true);
        self.count(TouchedKind::NotInRisingOrder, blocks != rising);
        self.count(TouchedKind::Gap, rising.windows(2).any(|pair| pair[1] > pair[0] + 1));
        if let (Some(&lowest), Some(&highest)) = (rising.first(), rising.last()) {
            self.count(TouchedKind::LowestAbove0, lowest > 0);
            self.count(TouchedKind::Block15, highest == HIGHEST);
            self.count(TouchedKind::Block15Alone, lowest == HIGHEST);
            self.count(TouchedKind::Blocks0And15, lowest == 0 && highest == HIGHEST);
        }
    }

    fn take_spent(&mut self, touched: &[Touched], causes: u16) {
        let Some(highest) = touched.iter().map(|one| one.block).max() else { return };
        let by_the_highest = causes & 1 << highest != 0;
        let by_a_lower = causes & !(1 << highest) != 0;
        let by_the_highest_of_several = touched.len() > 1 && by_the_highest && !by_a_lower;
        self.count(TouchedKind::SpentByTheHighest, by_the_highest_of_several);
        self.count(TouchedKind::SpentByBlock15, by_the_highest_of_several && highest == HIGHEST);
        self.count(TouchedKind::SpentByALowerOne, by_a_lower && !by_the_highest);
    }
}

struct Touched {
    block: u8,
    version: u32,
}

/// Follows one run.
struct Follower<'a> {
    coverage: &'a mut TouchedCoverage,
    /// For each task, the blocks in the order in which its transaction touched them.
    touched: [Vec<Touched>; MAX_TASKS],
}

impl Observer for Follower<'_> {
    fn statement(&mut self, _tick: u32, task: usize, statement: Statement) {
        let touched = &self.touched[task];
        match statement {
            Statement::CommitOfNothing | Statement::CommitSpent => {
                self.coverage.take_commit(touched);
            }
            Statement::CommitGathers => {
                self.coverage.take_commit(touched);
                let only_read = touched.iter().any(|one| one.version == TOP_VERSION);
                self.coverage.count(TouchedKind::LastVersionOnlyRead, only_read);
            }
            _ => {}
        }
    }

    fn event(&mut self, _tick: u32, task: usize, event: Event<'_>) {
        match event {
            Event::TransactionBegins { .. } => self.touched[task].clear(),
            Event::AttemptLost { cause } => {
                let rejected = cause == Cause::RejectedCommit && self.touched[task].len() > 2;
                self.coverage.count(TouchedKind::RejectedOfThree, rejected);
                self.touched[task].clear();
            }
            Event::Touches { block, version } => {
                self.touched[task].push(Touched { block, version });
            }
            Event::Spent { causes } => self.coverage.take_spent(&self.touched[task], causes),
            _ => {}
        }
    }
}
