//! Change 7 of document 02: what an exchange did, counted from its statements, and the ticks of its own
//! that it then takes.

use crate::observer::{Event, Statement};

/// The five numbers of an exchange. Each rises in the tick of the statement that finds it: if the tick
/// limit cuts the exchange off, they are those of the ticks done.
#[derive(Clone, Copy, Debug, Default, PartialEq, Eq)]
pub struct Tally {
    /// a: the words that it tried to install, done or not.
    pub tried: u32,
    /// d: 1 if it stopped at a differing value, counted in the tick of the Save that finds it.
    pub differed: u32,
    /// f: the save places that it fetched.
    pub fetched: u32,
    /// m: its marks on other tasks, before Install and in Clean.
    pub marked: u32,
    /// b: 1 if an install failed, counted in the tick of that Install.
    pub failed: u32,
}

impl Tally {
    /// The ticks of its own of a finished exchange: Start, the last Test and Commit; Test, Load, Look,
    /// Save, Install and Clean of each word tried; the first four and Fail of a differing one; and
    /// each Fetch, each Mark and the Fail after an install.
    pub fn exact_ticks(&self) -> u32 {
        3 + 6 * self.tried + 5 * self.differed + self.fetched + self.marked + self.failed
    }

    /// A statement of its task while it is under way.
    pub fn take_statement(&mut self, statement: Statement) {
        match statement {
            Statement::InstallDone => self.tried += 1,
            Statement::InstallNotDone => {
                self.tried += 1;
                self.failed += 1;
            }
            Statement::ExchangeFetch => self.fetched += 1,
            _ => {}
        }
    }

    /// An event of its task while it is under way. A mark on the own task is not counted.
    pub fn take_event(&mut self, own_task: usize, event: Event<'_>) {
        match event {
            Event::ExchangeDiffers => self.differed += 1,
            Event::Marks { task } => self.marked += u32::from(task != own_task),
            _ => {}
        }
    }
}
