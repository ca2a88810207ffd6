//! A sheet that was read: its bytes, its names, the line of each byte, and refusals in these terms.

use std::ffi::OsStr;
use std::path::Path;

use simulator::sheet::parse;
use simulator::Answer;
use tools::encode::{encode_utf8, Encoded};
use tools::explain;
use tools::names::Names;

use crate::arguments::{Given, Limit};
use crate::compared::Stop;
use crate::engine::{engine, DECIDING_LENGTH, LONGEST_SHEET, TOP_LIMIT};
use crate::failure::{not_done, Failure, Refusal, Standing};
use crate::input::{self, Content, Identity, Input};
use crate::output;
use crate::table::NAME;

#[derive(Clone, Debug)]
pub struct Sheet {
    pub label: String,
    pub bytes: Vec<u8>,
    /// If it was a text.
    text: Option<Encoded>,
    /// False if the input has more bytes than decide the answer.
    pub whole: bool,
    pub identity: Option<Identity>,
}

impl Sheet {
    /// Reads the sheet that the arguments name.
    pub fn read(given: &Given) -> Result<Sheet, Failure> {
        let Input { label, content, identity } = input::read(given)?;
        match content {
            Content::Bytes { first, all } => {
                Ok(Sheet { label, bytes: first, text: None, whole: all, identity })
            }
            Content::Text(text) => {
                let encoded = encode_utf8(&text);
                let encoded = encoded.map_err(|fault| not_done(format!("{label}: {fault}")))?;
                let bytes = encoded.bytes.clone();
                Ok(Sheet { label, bytes, text: Some(encoded), whole: true, identity })
            }
        }
    }

    /// The names that the text gives.
    pub fn names(&self) -> Names {
        self.text.as_ref().map(|text| text.names.clone()).unwrap_or_default()
    }

    /// The names of an accepted sheet: those of its text, and over them those of `--name`.
    pub fn names_with(&self, given: &Given) -> Result<Names, Failure> {
        let fault = |reason: String| given.fault(&format!("{}: {reason}", NAME.long));
        let mut chosen = Names::default();
        for value in given.values(&NAME) {
            chosen.add(&value.to_string_lossy()).map_err(fault)?;
        }
        let mut names = self.names();
        names.take(chosen);
        let has = parse(&self.bytes).unwrap_or_default();
        names.check(has.words.len(), has.blocks.len(), has.bodies.len()).map_err(fault)?;
        Ok(names)
    }

    /// The engine's check, which a limit too high follows.
    pub fn check(&self, limit: &Limit) -> Result<(), Failure> {
        match answer_to(&self.bytes, limit) {
            Answer { number: 0, .. } => Ok(()),
            answer => Err(self.refused(answer, limit)),
        }
    }

    pub fn stopped(&self, stop: Stop, limit: &Limit) -> Failure {
        match stop {
            Stop::Refused(answer) => self.refused(answer, limit),
            Stop::Differ(message) => not_done(format!("{}: {message}", self.label)),
        }
    }

    /// The refusal as a user reads it.
    pub fn refused(&self, answer: Answer, limit: &Limit) -> Failure {
        let (standing, reason) = match answer {
            Answer { number: 9, .. } => (Standing::NoText, too_high(limit)),
            _ => (self.standing(answer.place), explain::reason(&self.bytes, answer, &self.names())),
        };
        refused(&self.label, answer, standing, reason)
    }

    fn standing(&self, place: usize) -> Standing {
        match &self.text {
            None => Standing::NoText,
            Some(text) => text.line_of(place).map_or(Standing::AfterLastLine, Standing::Line),
        }
    }

    /// What was read only in part is not written in another form.
    pub fn must_be_whole(&self) -> Result<(), Failure> {
        if self.whole {
            return Ok(());
        }
        let reason = format!(
            "no sheet is longer than {LONGEST_SHEET} bytes, and this has more than {DECIDING_LENGTH}; nothing is written"
        );
        Err(not_done(format!("{}: {reason}", self.label)))
    }

    pub fn write(&self, given: &Given, bytes: &[u8]) -> Result<(), Failure> {
        output::write(given, self.identity, bytes)
    }

    /// The file's name without its folders.
    pub fn title(&self, given: &Given) -> String {
        let name = Path::new(&given.sheet).file_name().map(OsStr::to_string_lossy);
        match name {
            Some(name) if !given.is_standard_input() => name.into_owned(),
            _ => self.label.clone(),
        }
    }
}

/// The engine's own answer to a sheet and a limit. A limit too high is for its run to refuse, which then does no tick.
pub fn answer_to(sheet: &[u8], limit: &Limit) -> Answer {
    if limit.ticks <= TOP_LIMIT {
        return engine().check(sheet);
    }
    match engine().run(sheet, limit.ticks) {
        Ok(_) => Answer { number: 0, place: 0 },
        Err(answer) => answer,
    }
}

pub fn too_high(limit: &Limit) -> String {
    format!("the limit {} is above {TOP_LIMIT}", limit.written)
}

pub fn refused(label: &str, answer: Answer, standing: Standing, reason: String) -> Failure {
    let label = label.to_string();
    Failure::Refused(Refusal { label, answer, standing, reason, meaning: None })
}
