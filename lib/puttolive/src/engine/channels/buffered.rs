// Made by tools/erase of crates/channels/src/buffered.rt, and not to be edited.

//! A channel with room for messages, on which one may also wait to be told.

use crate::engine::channels::channel::Channel;
use crate::engine::channels::held::Held;
use crate::engine::channels::pulls::{Pull, Pulls};
use crate::engine::channels::waiting::{Side, StandFault, Waiting};

/// Who waits to send, to receive and to be told, and what is held.
pub struct Buffered {
    lines: Channel,
    held: Held,
    pulls: Pulls,
}

/// Why a message is not held.
#[derive(Clone, Copy, PartialEq, Eq, Debug)]
pub enum HoldFault {
    /// The channel is closed.
    Closed,
    /// Somebody stands to receive: he has to be asked first.
    Ready,
    /// There is no room.
    Full,
    /// There is no memory.
    Memory,
}

/// Why no message is taken.
#[derive(Clone, Copy, PartialEq, Eq, Debug)]
pub enum TakeFault {
    /// None is held.
    Empty,
    /// Somebody stands to send, whose message is to be held next: he has to be asked first.
    Ready,
}

impl Buffered {
    /// An open channel with room for so many messages: 0 is a rendezvous, and `usize::MAX` is without bound.
    pub fn new(room: usize) -> Buffered {
        Buffered { lines: Channel::new(), held: Held::new(room), pulls: Pulls::new() }
    }

    /// Takes the oldest of a side out of its line. He is the caller's, to answer or to forget.
    #[inline]
    pub fn oldest(&mut self, side: Side) -> Option<Waiting> {
        self.lines.oldest(side)
    }

    /// Holds a message behind all others.
    #[inline]
    pub fn hold(&mut self, value: u64) -> Result<(), HoldFault> {
        if self.lines.is_closed() {
            return Err(HoldFault::Closed);
        }
        if self.lines.len(Side::Receive) > 0 {
            return Err(HoldFault::Ready);
        }
        if !self.held.has_room() {
            return Err(HoldFault::Full);
        }
        self.held.put(value).map_err(|_| HoldFault::Memory)
    }

    /// Takes the oldest message. The next one, if there is one, is that of the sender who stood longest: it is held behind
    /// all others.
    #[inline]
    pub fn take(&mut self, next: Option<u64>) -> Result<u64, TakeFault> {
        match next {
            Some(next) => self.held.exchange(next).ok_or(TakeFault::Empty),
            None => self.take_last(),
        }
    }

    /// Takes the oldest message, where nobody stands to send.
    fn take_last(&mut self) -> Result<u64, TakeFault> {
        if self.held.is_empty() {
            return Err(TakeFault::Empty);
        }
        if self.lines.len(Side::Send) > 0 {
            return Err(TakeFault::Ready);
        }
        match self.held.take() {
            Some(value) => Ok(value),
            None => Err(TakeFault::Empty),
        }
    }

    /// Whether somebody of the side would find what he looks for: room or a message, or somebody of another ticket.
    #[inline]
    pub fn is_ready(&self, side: Side, waiting: Waiting) -> bool {
        match side {
            Side::Send => self.held.has_room() || self.lines.has_other(Side::Receive, waiting.ticket),
            Side::Receive => !self.held.is_empty() || self.lines.has_other(Side::Send, waiting.ticket),
        }
    }

    /// Lets somebody stand behind all of his side. After an error the channel is as it was.
    #[inline]
    pub fn stand(&mut self, side: Side, waiting: Waiting) -> Result<(), StandFault> {
        if self.lines.is_closed() {
            return Err(StandFault::Closed);
        }
        if self.is_ready(side, waiting) {
            return Err(StandFault::Ready);
        }
        self.lines.stand(side, waiting)
    }

    /// Lets somebody wait to be told that there is something to receive. After an error the channel is as it was.
    #[inline]
    pub fn pull(&mut self, waiting: Waiting) -> Result<(), StandFault> {
        if self.lines.is_closed() {
            return Err(StandFault::Closed);
        }
        if self.is_ready(Side::Receive, waiting) {
            return Err(StandFault::Ready);
        }
        self.pulls.add(waiting).map_err(|_| StandFault::Memory)
    }

    /// Tells the oldest for whom something is there, unless one was told for whom something is there. Whoever calls it after
    /// each change leaves nobody untold: he wakes whom it names.
    pub fn tell(&mut self) -> Option<Waiting> {
        if self.pulls.is_empty() {
            return None;
        }
        let index = self.first_missed()?;
        if self.is_reached() {
            return None;
        }
        Some(self.pulls.tell(index))
    }

    /// The oldest that was not told and for whom something is there.
    fn first_missed(&self) -> Option<usize> {
        for (index, pull) in self.pulls.as_slice().iter().enumerate() {
            if self.is_missed(*pull) {
                return Some(index);
            }
        }
        None
    }

    fn is_missed(&self, pull: Pull) -> bool {
        !pull.told && self.is_ready(Side::Receive, pull.waiting)
    }

    fn reaches(&self, pull: Pull) -> bool {
        pull.told && self.is_ready(Side::Receive, pull.waiting)
    }

    /// Whether one was told for whom something is there.
    fn is_reached(&self) -> bool {
        for pull in self.pulls.as_slice() {
            if self.reaches(*pull) {
                return true;
            }
        }
        false
    }

    /// Those of the ticket have looked and found nothing: they wait on in their places, to be told anew.
    pub fn wait_on(&mut self, ticket: u64) {
        self.pulls.untell(ticket);
    }

    /// Those of the ticket wait no longer to be told.
    pub fn forget(&mut self, ticket: u64) {
        self.pulls.forget(ticket);
    }

    /// Whether the line of a side is at its limit, so that it is to be sifted.
    #[inline]
    pub fn is_full(&self, side: Side) -> bool {
        self.lines.is_full(side)
    }

    /// Drops those of a side of whom `is_live` says that they wait no longer.
    pub fn sift<F: FnMut(&Waiting) -> bool>(&mut self, side: Side, is_live: F) {
        self.lines.sift(side, is_live);
    }

    /// Closes the channel. Those who stand or wait, and what is held, stay until they are taken out.
    pub fn close(&mut self) {
        self.lines.close();
    }

    /// Whether the channel is closed.
    pub fn is_closed(&self) -> bool {
        self.lines.is_closed()
    }

    /// How many stand in the line of a side, with those who wait no longer.
    pub fn len(&self, side: Side) -> usize {
        self.lines.len(side)
    }

    /// How many messages are held.
    pub fn held(&self) -> usize {
        self.held.len()
    }

    /// How many wait to be told, told or not.
    pub fn pulls(&self) -> usize {
        self.pulls.len()
    }
}
