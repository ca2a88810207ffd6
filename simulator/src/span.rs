//! The first and the last tick of an operation or of an exchange, and how many between are its own.

/// The ticks of an operation or of an exchange.
#[derive(Clone, Copy, Debug)]
pub struct Span {
    pub first: u32,
    /// The tick in which it ended, if it did.
    pub last: Option<u32>,
    /// The statements of its task up to its first one, and up to its latest one.
    own_first: u32,
    own_last: u32,
}

impl Span {
    pub fn new(tick: u32, own_tick: u32) -> Span {
        Span { first: tick, last: None, own_first: own_tick, own_last: own_tick }
    }

    /// While it is under way, every statement of its task is its own.
    pub fn go_on(&mut self, own_tick: u32) {
        if self.last.is_none() {
            self.own_last = own_tick;
        }
    }

    pub fn end(&mut self, tick: u32) {
        self.last = Some(tick);
    }

    /// How many ticks of its own it took, or has taken so far if it has not ended.
    pub fn own_ticks(&self) -> u32 {
        self.own_last - self.own_first + 1
    }

    /// After the first tick and before the last.
    pub fn holds_inside(&self, tick: u32) -> bool {
        self.first < tick && self.last.is_none_or(|last| tick < last)
    }
}
