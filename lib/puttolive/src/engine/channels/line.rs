// Made by tools/erase of crates/channels/src/line.rt, and not to be edited.

//! A line of those who wait, the oldest first.

use crate::engine::channels::waiting::Waiting;
use crate::engine::shim::{AllocError, VecDeque};

/// Those who wait, the oldest first. Some may wait no longer: they are sifted out at a limit.
pub struct Line {
    waiting: VecDeque<Waiting>,
    /// At so many the line is full.
    limit: usize,
}

impl Line {
    /// How many a line holds at least before it is full.
    const FEW: usize = 8;

    /// Nobody waits.
    pub fn new() -> Line {
        Line { waiting: VecDeque::new(), limit: Line::FEW }
    }

    /// How many stand in the line, with those who wait no longer.
    pub fn len(&self) -> usize {
        self.waiting.len()
    }

    /// Takes the oldest out.
    #[inline]
    pub fn take_oldest(&mut self) -> Option<Waiting> {
        self.waiting.pop_front()
    }

    /// Adds somebody behind all. An error says that there is no memory.
    #[inline]
    pub fn add(&mut self, waiting: Waiting) -> Result<(), AllocError> {
        self.waiting.push_back(waiting)?;
        Ok(())
    }

    /// Whether the line is at its limit: twice what the last sifting left, and at least 8.
    #[inline]
    pub fn is_full(&self) -> bool {
        self.waiting.len() >= self.limit
    }

    /// Drops those of whom `is_live` says that they wait no longer, and sets the limit anew.
    pub fn sift<F: FnMut(&Waiting) -> bool>(&mut self, is_live: F) {
        self.waiting.retain(is_live);
        self.limit = self.waiting.len().saturating_mul(2).max(Line::FEW);
    }

    /// Whether somebody of another ticket stands in the line.
    #[inline]
    pub fn has_other(&self, ticket: u64) -> bool {
        self.waiting.iter().any(|waiting| waiting.ticket != ticket)
    }
}
