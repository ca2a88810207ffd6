//! What each statement does, in a sentence of document 01's words.

use simulator::observer::Statement;

/// By the statement's place in its enum, so that a tick needs one byte for it.
pub const SENTENCES: [(Statement, &str); 37] = [
    (Statement::Load, "The register takes the number."),
    (Statement::Add, "The first register takes the sum of both, modulo 2^32."),
    (
        Statement::Pair,
        "One more word for the next SWAP, with old and new as the registers have them now.",
    ),
    (Statement::ReadLoad, "READ loads the word as it stands."),
    (
        Statement::ReadLook,
        "READ looks whether the loaded word's own value counts. If so, the register takes it.",
    ),
    (
        Statement::ReadFetch,
        "The word is installed by an exchange that has not committed: READ fetches the saved value, and the register takes it.",
    ),
    (Statement::Begin, "A transaction begins. It keeps the registers for a restart."),
    (
        Statement::FirstLoad,
        "The first GET or PUT of the block loads its bank word (version and store).",
    ),
    (
        Statement::FirstLook,
        "Does the loaded bank word's own value count? If so, its version is remembered.",
    ),
    (
        Statement::FirstFetch,
        "The bank word is installed by an exchange that has not committed: the saved one is fetched and its version remembered.",
    ),
    (Statement::AgainLoad, "The bank word is loaded again, to check the version."),
    (
        Statement::AgainLook,
        "Does the loaded bank word's own value count? If so, its version is held to the remembered one.",
    ),
    (
        Statement::AgainFetch,
        "The bank word is installed by an exchange that has not committed: the saved version is held to the remembered one.",
    ),
    (Statement::GetFromBlock, "GET fetches the value from the block."),
    (Statement::GetFromCopy, "GET fetches the value from the transaction's own copy."),
    (
        Statement::PutCopies,
        "The first PUT of the block copies one of its eight values into the transaction's own copy.",
    ),
    (
        Statement::PutWrites,
        "PUT writes the register's value into the transaction's own copy, which nobody else sees yet.",
    ),
    (Statement::CommitOfNothing, "COMMIT with no block touched: the transaction is done."),
    (
        Statement::CommitGathers,
        "COMMIT gathers the bank words of the touched blocks, by rising number, for one exchange.",
    ),
    (
        Statement::CommitSpent,
        "COMMIT would take a block past the highest version: the job ends as spent.",
    ),
    (Statement::ExchangeStart, "The exchange starts: the task's status becomes 0."),
    (
        Statement::ExchangeTest,
        "With all words done, or status 1, Commit follows; else the next word's Load.",
    ),
    (Statement::ExchangeLoad, "The word is loaded as it stands: init."),
    (
        Statement::ExchangeLook,
        "Does the loaded word's own value count? If not, it is overlapped and Fetch follows.",
    ),
    (
        Statement::ExchangeFetch,
        "The value is fetched from the save place of the task that has the word installed.",
    ),
    (
        Statement::ExchangeSave,
        "The value found goes to the task's own save place. If it is not old, Fail follows.",
    ),
    (Statement::FailAfterSave, "The value found is not old: the task's own status becomes 1."),
    (Statement::Mark, "The task that the loaded word names gets status 1."),
    (
        Statement::InstallDone,
        "The word is still init: it takes the new value, not valid, and the task's number.",
    ),
    (
        Statement::InstallNotDone,
        "The word is no longer init: nothing is written, and Fail follows.",
    ),
    (Statement::FailAfterInstall, "Install found another word: the task's own status becomes 1."),
    (
        Statement::CommitYes,
        "Status 0 becomes 2. The answer is yes: all new values count from this tick on.",
    ),
    (Statement::CommitNo, "The status is 1. The answer is no: no value changes."),
    (Statement::CleanAsNew, "The word is still as installed: it becomes valid with its new value."),
    (Statement::CleanBackToInit, "The word is still as installed: it becomes init again."),
    (Statement::CleanNothing, "The word is no longer as installed: nothing is written."),
    (
        Statement::CleanMark,
        "The word was overlapped: the task that the loaded word names gets status 1.",
    ),
];

pub fn sentence(statement: Statement) -> &'static str {
    SENTENCES[statement as usize].1
}

#[cfg(test)]
mod tests {
    use super::SENTENCES;

    #[test]
    fn every_statement_is_at_its_place() {
        for (place, (statement, _)) in SENTENCES.iter().enumerate() {
            assert_eq!(*statement as usize, place);
        }
    }
}
