// Made by tools/erase of crates/channels/src/channel.rt, and not to be edited.

//! A channel: a line for each side.

use crate::engine::channels::line::Line;
use crate::engine::channels::waiting::{Side, StandFault, Waiting};

/// Who waits to send and who to receive. No two of them could meet.
pub struct Channel {
    sends: Line,
    receives: Line,
    closed: bool,
}

impl Channel {
    /// An open channel on which nobody waits.
    pub fn new() -> Channel {
        Channel { sends: Line::new(), receives: Line::new(), closed: false }
    }

    /// Takes the oldest of a side out of its line. He is the caller's, to answer or to forget.
    #[inline]
    pub fn oldest(&mut self, side: Side) -> Option<Waiting> {
        match side {
            Side::Send => self.sends.take_oldest(),
            Side::Receive => self.receives.take_oldest(),
        }
    }

    /// Lets somebody stand behind all of his side. After an error the channel is as it was.
    #[inline]
    pub fn stand(&mut self, side: Side, waiting: Waiting) -> Result<(), StandFault> {
        if self.closed {
            return Err(StandFault::Closed);
        }
        match side {
            Side::Send => stand(&mut self.sends, &self.receives, waiting),
            Side::Receive => stand(&mut self.receives, &self.sends, waiting),
        }
    }

    /// Whether the line of a side is at its limit, so that it is to be sifted.
    #[inline]
    pub fn is_full(&self, side: Side) -> bool {
        match side {
            Side::Send => self.sends.is_full(),
            Side::Receive => self.receives.is_full(),
        }
    }

    /// Drops those of a side of whom `is_live` says that they wait no longer.
    pub fn sift<F: FnMut(&Waiting) -> bool>(&mut self, side: Side, is_live: F) {
        match side {
            Side::Send => self.sends.sift(is_live),
            Side::Receive => self.receives.sift(is_live),
        }
    }

    /// Whether somebody of another ticket stands on a side.
    #[inline]
    pub fn has_other(&self, side: Side, ticket: u64) -> bool {
        match side {
            Side::Send => self.sends.has_other(ticket),
            Side::Receive => self.receives.has_other(ticket),
        }
    }

    /// Closes the channel. Those who stand in its lines stay until they are taken out.
    pub fn close(&mut self) {
        self.closed = true;
    }

    /// Whether the channel is closed.
    pub fn is_closed(&self) -> bool {
        self.closed
    }

    /// How many stand in the line of a side, with those who wait no longer.
    pub fn len(&self, side: Side) -> usize {
        match side {
            Side::Send => self.sends.len(),
            Side::Receive => self.receives.len(),
        }
    }
}

/// Lets somebody stand in his line, unless somebody of another ticket stands in the opposite one.
#[inline]
fn stand(line: &mut Line, others: &Line, waiting: Waiting) -> Result<(), StandFault> {
    if others.has_other(waiting.ticket) {
        return Err(StandFault::Ready);
    }
    line.add(waiting).map_err(|_| StandFault::Memory)
}
