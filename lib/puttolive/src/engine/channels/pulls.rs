// Made by tools/erase of crates/channels/src/pulls.rt, and not to be edited.

//! Those who wait to be told that something is there.

use crate::engine::channels::waiting::Waiting;
use crate::engine::shim::{AllocError, Vec};

/// Somebody who waits to be told.
#[derive(Clone, Copy, PartialEq, Eq, Debug)]
pub struct Pull {
    /// Who it is.
    pub waiting: Waiting,
    /// Whether he was told since he last looked.
    pub told: bool,
}

/// Those who wait to be told, the oldest first.
pub struct Pulls {
    pub(crate) pulls: Vec<Pull>,
}

/// The same, not told if it is of the ticket.
fn untold(ticket: u64, pull: Pull) -> Pull {
    Pull { told: pull.told && pull.waiting.ticket != ticket, ..pull }
}

impl Pulls {
    /// Nobody waits.
    pub fn new() -> Pulls {
        Pulls { pulls: Vec::new() }
    }

    /// How many wait, told or not.
    pub fn len(&self) -> usize {
        self.pulls.len()
    }

    /// All of them.
    #[inline]
    pub fn as_slice(&self) -> &[Pull] {
        self.pulls.as_slice()
    }

    /// Somebody comes to wait, who is not told.
    pub fn add(&mut self, waiting: Waiting) -> Result<(), AllocError> {
        self.pulls.push(Pull { waiting, told: false })?;
        Ok(())
    }

    /// Those of the ticket wait no longer.
    pub fn forget(&mut self, ticket: u64) {
        self.pulls.retain(|pull| pull.waiting.ticket != ticket);
    }

    /// Those of the ticket have looked, and are to be told anew.
    pub fn untell(&mut self, ticket: u64) {
        for pull in self.pulls.iter_mut() {
            *pull = untold(ticket, *pull);
        }
    }

    /// Whether nobody waits.
    #[inline]
    pub fn is_empty(&self) -> bool {
        self.pulls.is_empty()
    }

    /// This one is told.
    pub fn tell(&mut self, index: usize) -> Waiting {
        let waiting = self.pulls[index].waiting;
        self.pulls[index] = Pull { waiting, told: true };
        waiting
    }
}
