//! Tools for people who write and read run sheets: sheets as text, and charts of their runs.
//!
//! `form` is the table of the text form; `encode`, with what is `declared` so far, and `decode` are
//! its two directions; `names` are those of words, blocks and tasks; `explain` says in a sentence why
//! the check turns a sheet down; `report` what a report's numbers mean; `quote` repeats a user's text,
//! `nearest` finds the word that was meant.
//! `recording` is what happened in each tick of a run; `chart` draws it as SVG, `page` as HTML;
//! `history` lists the operations as CSV and as `json`; `source` says where all this comes from.
//! `examples` makes the stored files of examples/.

pub mod chart;
pub mod declared;
pub mod decode;
pub mod encode;
pub mod examples;
pub mod explain;
pub mod form;
pub mod history;
pub mod json;
pub mod names;
pub mod nearest;
pub mod page;
pub mod quote;
pub mod recording;
pub mod report;
pub mod source;
