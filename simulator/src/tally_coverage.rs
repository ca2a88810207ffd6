//! What a corpus covers of finished exchanges: how many of SWAPs and of COMMITs did what change 7 of
//! document 02 counts, alone and together.

use crate::history::{run_with_history, Exchange, Kind, Tally};
use crate::sheet::{Sheet, MAX_PAIRS};

#[derive(Clone, Copy, Debug, PartialEq, Eq)]
enum TallyKind {
    Differed,
    DifferedAtTheFirstWord,
    DifferedAfterATriedWord,
    Fetched,
    /// SWAPs only: the differing value came from a save place. A transaction has read the same word
    /// before, and whoever changed it since then runs above it and has left it valid.
    FetchedTheDifferingValue,
    FetchedAndNotMarked,
    FetchedOfEveryWord,
    OneMark,
    /// Before Install and in Clean.
    TwoMarksForOneWord,
    /// More than two.
    MarksForSeveralWords,
    /// No pair changes its word.
    MarkInCleanOnly,
    Failed,
    FailedAfterADoneInstall,
    FailedWithoutAFetch,
    /// Another task's mark stopped it before its last word.
    NoWithWordsLeft,
    /// It installed all its words, and another task's mark made its answer no.
    NoWithAllInstalled,
    DisturbedYes,
    OldBoundReached,
}

const TALLY_KINDS: [TallyKind; 18] = [
    TallyKind::Differed,
    TallyKind::DifferedAtTheFirstWord,
    TallyKind::DifferedAfterATriedWord,
    TallyKind::Fetched,
    TallyKind::FetchedTheDifferingValue,
    TallyKind::FetchedAndNotMarked,
    TallyKind::FetchedOfEveryWord,
    TallyKind::OneMark,
    TallyKind::TwoMarksForOneWord,
    TallyKind::MarksForSeveralWords,
    TallyKind::MarkInCleanOnly,
    TallyKind::Failed,
    TallyKind::FailedAfterADoneInstall,
    TallyKind::FailedWithoutAFetch,
    TallyKind::NoWithWordsLeft,
    TallyKind::NoWithAllInstalled,
    TallyKind::DisturbedYes,
    TallyKind::OldBoundReached,
];

#[derive(Default)]
pub struct TallyCoverage {
    swaps: Counts,
    commits: Counts,
}

impl TallyCoverage {
    /// Runs the sheet and counts its finished exchanges.
    pub fn take(&mut self, sheet: &Sheet, limit: u32) {
        let (_, history) = run_with_history(sheet, limit);
        for operation in &history.operations {
            let counts = match operation.kind {
                Kind::Swap { .. } => &mut self.swaps,
                _ => &mut self.commits,
            };
            let ended = operation.exchanges.iter().filter(|one| one.span.last.is_some());
            ended.for_each(|exchange| counts.take(exchange));
        }
    }

    pub fn rows(&self) -> impl Iterator<Item = (String, u64)> + '_ {
        let swaps = TALLY_KINDS.iter();
        let commits =
            TALLY_KINDS.iter().filter(|&&kind| kind != TallyKind::FetchedTheDifferingValue);
        self.swaps.rows("SWAP", swaps).chain(self.commits.rows("COMMIT", commits))
    }
}

/// The finished exchanges of SWAPs, or of COMMITs.
#[derive(Default)]
struct Counts {
    kinds: [u64; TALLY_KINDS.len()],
    /// By the number of words: answered yes with no fetch and no mark.
    undisturbed_yes: [u64; MAX_PAIRS + 1],
}

impl Counts {
    fn take(&mut self, exchange: &Exchange) {
        let words = exchange.pairs.len();
        let yes = exchange.committed == Some(true);
        let tally = &exchange.tally;
        let undisturbed = tally.fetched == 0 && tally.marked == 0;
        self.undisturbed_yes[words] += u64::from(yes && undisturbed);
        self.count(TallyKind::DisturbedYes, yes && !undisturbed);
        let no_by_a_mark = !yes && tally.differed == 0 && tally.failed == 0;
        let all_tried = tally.tried == words as u32;
        self.count(TallyKind::NoWithWordsLeft, no_by_a_mark && !all_tried);
        self.count(TallyKind::NoWithAllInstalled, no_by_a_mark && all_tried);
        self.count(TallyKind::FetchedOfEveryWord, tally.fetched == words as u32);
        let none_changes = !exchange.pairs.iter().any(|pair| pair.changes());
        self.count(TallyKind::MarkInCleanOnly, none_changes && tally.marked > 0);
        let bound = 9 * words as u32 + 4;
        self.count(TallyKind::OldBoundReached, exchange.span.own_ticks() == bound);
        self.take_tally(tally);
    }

    fn take_tally(&mut self, tally: &Tally) {
        let Tally { tried, differed, fetched, marked, failed } = *tally;
        self.count(TallyKind::Differed, differed > 0);
        self.count(TallyKind::DifferedAtTheFirstWord, differed > 0 && tried == 0);
        self.count(TallyKind::DifferedAfterATriedWord, differed > 0 && tried > 0);
        self.count(TallyKind::Fetched, fetched > 0);
        // With no word tried, the one fetch is that of the differing word.
        self.count(TallyKind::FetchedTheDifferingValue, fetched > 0 && tried == 0);
        self.count(TallyKind::FetchedAndNotMarked, fetched > 0 && marked == 0);
        self.count(TallyKind::OneMark, marked == 1);
        // A word has at most two, one in each place.
        self.count(TallyKind::TwoMarksForOneWord, marked == 2 && tried == 1);
        self.count(TallyKind::MarksForSeveralWords, marked > 2);
        self.count(TallyKind::Failed, failed > 0);
        self.count(TallyKind::FailedAfterADoneInstall, failed > 0 && tried > 1);
        self.count(TallyKind::FailedWithoutAFetch, failed > 0 && fetched == 0);
    }

    fn count(&mut self, kind: TallyKind, holds: bool) {
        self.kinds[kind as usize] += u64::from(holds);
    }

    fn rows<'a>(
        &'a self,
        name: &'static str,
        kinds: impl Iterator<Item = &'a TallyKind> + 'a,
    ) -> impl Iterator<Item = (String, u64)> + 'a {
        let of_kind =
            move |kind: &TallyKind| (format!("{name} tally {kind:?}"), self.kinds[*kind as usize]);
        let of_words = move |words: usize| {
            (format!("{name} of {words} words, undisturbed yes"), self.undisturbed_yes[words])
        };
        kinds.map(of_kind).chain((1..=MAX_PAIRS).map(of_words))
    }
}
