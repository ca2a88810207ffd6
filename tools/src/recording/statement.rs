//! How each statement is shown: the word in its cell, and the kind that gives the cell its colour.

use simulator::observer::Statement;

/// The kinds from light to dark, so that a grey print keeps them apart; the last has an outline instead.
#[derive(Clone, Copy, Debug, PartialEq, Eq)]
pub enum Kind {
    Plain,
    Read,
    Prepare,
    Values,
    WriteWord,
    Fails,
    Commit,
    /// An Install or Clean that found another word than its own, and so wrote nothing.
    WriteNothing,
}

impl Kind {
    pub const ALL: [Kind; 8] = [
        Kind::Plain,
        Kind::Read,
        Kind::Prepare,
        Kind::Values,
        Kind::WriteWord,
        Kind::Fails,
        Kind::Commit,
        Kind::WriteNothing,
    ];

    /// The class in the picture's style.
    pub fn class(self) -> &'static str {
        match self {
            Kind::Plain => "plain",
            Kind::Read => "read",
            Kind::Prepare => "prepare",
            Kind::Values => "values",
            Kind::WriteWord => "write-word",
            Kind::Fails => "fails",
            Kind::Commit => "commit",
            Kind::WriteNothing => "write-nothing",
        }
    }

    pub fn colour(self) -> &'static str {
        match self {
            Kind::Plain | Kind::WriteNothing => "#ffffff",
            Kind::Read => "#cfe4f7",
            Kind::Prepare => "#e6c84a",
            Kind::Values => "#86b35f",
            Kind::WriteWord => "#d4681f",
            Kind::Fails => "#a51c30",
            Kind::Commit => "#1b2440",
        }
    }

    pub fn explanation(self) -> &'static str {
        match self {
            Kind::Plain => "plain: LOAD, ADD, PAIR, BEGIN",
            Kind::Read => "read a word: Load, Look, Fetch",
            Kind::Prepare => "prepare an exchange: gather, Start, Test, Save",
            Kind::Values => "block values: fetch (GET), copy and write (PUT)",
            Kind::WriteWord => "write a word: Install, Clean",
            Kind::Fails => "an exchange fails: Fail, Mark; spent",
            Kind::Commit => "Commit; COMMIT with nothing touched",
            Kind::WriteNothing => "Install or Clean that finds another word",
        }
    }

    /// Is the cell so dark that its word must be light?
    pub fn is_dark(self) -> bool {
        matches!(self, Kind::Fails | Kind::Commit)
    }
}

/// Document 01's word for a statement. Commands are in capitals there, steps are not.
pub fn label(statement: Statement) -> &'static str {
    shown(statement).0
}

pub fn kind(statement: Statement) -> Kind {
    shown(statement).1
}

fn shown(statement: Statement) -> (&'static str, Kind) {
    match statement {
        Statement::Load => ("LOAD", Kind::Plain),
        Statement::Add => ("ADD", Kind::Plain),
        Statement::Pair => ("PAIR", Kind::Plain),
        Statement::Begin => ("BEGIN", Kind::Plain),
        Statement::ReadLoad
        | Statement::FirstLoad
        | Statement::AgainLoad
        | Statement::ExchangeLoad => ("Load", Kind::Read),
        Statement::ReadLook
        | Statement::FirstLook
        | Statement::AgainLook
        | Statement::ExchangeLook => ("Look", Kind::Read),
        Statement::ReadFetch
        | Statement::FirstFetch
        | Statement::AgainFetch
        | Statement::ExchangeFetch => ("Fetch", Kind::Read),
        Statement::GetFromBlock | Statement::GetFromCopy => ("fetch", Kind::Values),
        Statement::PutCopies => ("copy", Kind::Values),
        Statement::PutWrites => ("write", Kind::Values),
        Statement::CommitGathers => ("gather", Kind::Prepare),
        Statement::ExchangeStart => ("Start", Kind::Prepare),
        Statement::ExchangeTest => ("Test", Kind::Prepare),
        Statement::ExchangeSave => ("Save", Kind::Prepare),
        Statement::FailAfterSave | Statement::FailAfterInstall => ("Fail", Kind::Fails),
        Statement::Mark | Statement::CleanMark => ("Mark", Kind::Fails),
        Statement::CommitSpent => ("spent", Kind::Fails),
        Statement::InstallDone => ("Install", Kind::WriteWord),
        Statement::CleanAsNew | Statement::CleanBackToInit => ("Clean", Kind::WriteWord),
        Statement::InstallNotDone => ("Install", Kind::WriteNothing),
        Statement::CleanNothing => ("Clean", Kind::WriteNothing),
        Statement::CommitYes | Statement::CommitNo => ("Commit", Kind::Commit),
        Statement::CommitOfNothing => ("COMMIT", Kind::Commit),
    }
}
