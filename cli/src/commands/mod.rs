//! What each subcommand does.

mod build;
mod forms;
mod picture;
mod running;

pub use build::build;
pub use forms::{decode, encode};
pub use picture::{chart, history};
pub use running::{check, explain, run};
