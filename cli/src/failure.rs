//! What ends with a message on standard error: a refusal with status 1, anything not done with 2.

use std::fmt;

use simulator::Answer;

/// What each number of a refusal says, from 1 on.
const MEANINGS: [&str; 11] = [
    "the byte names no command",
    "the sheet ends inside a command or before END",
    "a byte follows END",
    "the command may not come there",
    "a ceiling would be passed",
    "an operand is out of range or names something not declared",
    "the word is already in the waiting PAIRs",
    "the releases do not rise",
    "the tick limit is above 65,535",
    "the report buffer is too short",
    "fewer bytes are free in the buffer than the command has",
];

/// What the number says, of whatever sheet.
pub fn meaning(number: u8) -> &'static str {
    MEANINGS[usize::from(number) - 1]
}

#[derive(Clone, Debug, PartialEq, Eq)]
pub enum Failure {
    /// The engine refuses the sheet or the limit.
    Refused(Refusal),
    NotDone(String),
}

/// A refusal as a user reads it.
#[derive(Clone, Debug, PartialEq, Eq)]
pub struct Refusal {
    /// The file, or `standard input`.
    pub label: String,
    pub answer: Answer,
    pub standing: Standing,
    pub reason: String,
    /// What the number says of whatever sheet, where that is asked for.
    pub meaning: Option<&'static str>,
}

/// Where in its text a fault stands.
#[derive(Clone, Copy, Debug, PartialEq, Eq)]
pub enum Standing {
    Line(usize),
    AfterLastLine,
    /// The sheet is no text, or the fault is not the sheet's.
    NoText,
}

impl Failure {
    pub fn status(&self) -> u8 {
        match self {
            Failure::Refused(_) => 1,
            Failure::NotDone(_) => 2,
        }
    }
}

/// Not done, for a reason that already names what it is about.
pub fn not_done(reason: impl Into<String>) -> Failure {
    Failure::NotDone(reason.into())
}

impl fmt::Display for Failure {
    fn fmt(&self, formatter: &mut fmt::Formatter<'_>) -> fmt::Result {
        match self {
            Failure::Refused(refusal) => refusal.fmt(formatter),
            Failure::NotDone(reason) => reason.fmt(formatter),
        }
    }
}

impl fmt::Display for Refusal {
    fn fmt(&self, formatter: &mut fmt::Formatter<'_>) -> fmt::Result {
        let Answer { number, place } = self.answer;
        write!(formatter, "{}: X {number} {place}{}: {}", self.label, self.standing, self.reason)?;
        match self.meaning {
            Some(meaning) => write!(formatter, "\nnumber {number}: {meaning}"),
            None => Ok(()),
        }
    }
}

impl fmt::Display for Standing {
    fn fmt(&self, formatter: &mut fmt::Formatter<'_>) -> fmt::Result {
        match self {
            Standing::Line(line) => write!(formatter, ", line {line}"),
            Standing::AfterLastLine => write!(formatter, ", after the last line"),
            Standing::NoText => Ok(()),
        }
    }
}

#[cfg(all(test, feature = "proved"))]
mod tests {
    use super::meaning;

    #[test]
    fn meanings_are_those_of_the_wrapper() {
        for number in 1..=11 {
            let refusal = hizgrael::Refusal { number, place: 0 };
            assert_eq!(meaning(number), refusal.meaning());
        }
    }
}
