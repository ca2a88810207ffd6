//! Where the picture or the list of a run comes from, in the words that it carries.

/// The second simulator tells what happens in each tick. How does its report stand to the proved engine's?
#[derive(Clone, Debug, PartialEq, Eq)]
pub enum Source {
    /// The proved engine gave the same report, byte for byte.
    Compared { version: String },
    /// There was no proved engine to compare with.
    SecondSimulatorAlone,
}

impl Source {
    pub fn sentence(&self) -> String {
        match self {
            Source::Compared { version } => format!(
                "From the second simulator's history; its report is the proved engine's (hizgrael {version}), byte for byte."
            ),
            Source::SecondSimulatorAlone => {
                "NOT PROVED: from the second simulator alone; no proved engine was there to compare with.".to_string()
            }
        }
    }
}
