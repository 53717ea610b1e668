// Made by tools/erase of crates/engine/src/calls.rt, and not to be edited.

//! The engine.

use crate::engine::offers::{Answer, Answered, ChannelKey, Entered, LatchKey, Offer, Refusal, SyncKey};
use crate::engine::shim::AllocError;
use crate::engine::table::Table;

/// The syncs that wait, and what is open. Nobody who could go on is left waiting.
pub struct Engine {
    table: Table,
}

impl Engine {
    /// Nobody waits, and nothing is open.
    pub fn new() -> Engine {
        Engine { table: Table::new() }
    }

    /// Opens a channel. An error says that there is no memory.
    pub fn open_channel(&mut self) -> Result<ChannelKey, AllocError> {
        self.table.open_channel()
    }

    /// Opens a latch, which is not fired. An error says that there is no memory.
    pub fn open_latch(&mut self) -> Result<LatchKey, AllocError> {
        self.table.open_latch()
    }

    /// Whether the channel of the offer is open, or its latch.
    pub fn knows(&self, offer: Offer) -> bool {
        self.table.is_known(offer)
    }

    /// Answers one of the offers that is ready, if any is. The number draws in which order they are tried.
    #[inline]
    pub fn poll(&mut self, offers: &[Offer], number: u64) -> Result<Option<Answer>, Refusal> {
        self.table.poll(offers, number)
    }

    /// Answers one of the offers that is ready. If none is, the sync waits. The number draws in which order they are tried.
    #[inline]
    pub fn enter(&mut self, offers: &[Offer], number: u64) -> Result<Entered, Refusal> {
        self.table.enter(offers, number)
    }

    /// Answers the oldest sync that waits for the latch. Once none does, the latch is fired: call it until it says `None`.
    pub fn fire(&mut self, latch: LatchKey) -> Result<Option<Answered>, Refusal> {
        if !self.knows(Offer::Latch(latch)) {
            return Err(Refusal::Unknown);
        }
        Ok(self.table.fire(latch))
    }

    /// The latch is fired no longer, for its next use.
    pub fn renew(&mut self, latch: LatchKey) -> Result<(), Refusal> {
        if !self.knows(Offer::Latch(latch)) {
            return Err(Refusal::Unknown);
        }
        self.table.renew(latch);
        Ok(())
    }

    /// Answers the oldest sync that waits at the channel: to send, or else to receive. Once none does, the channel is closed:
    /// call it until it says `None`.
    pub fn close_channel(&mut self, key: ChannelKey) -> Result<Option<Answered>, Refusal> {
        if !self.knows(Offer::Send(key)) {
            return Err(Refusal::Unknown);
        }
        Ok(self.table.close_channel(key))
    }

    /// Answers the oldest sync that waits for the latch. Once none does, the latch is closed: call it until it says `None`.
    pub fn close_latch(&mut self, key: LatchKey) -> Result<Option<Answered>, Refusal> {
        if !self.knows(Offer::Latch(key)) {
            return Err(Refusal::Unknown);
        }
        Ok(self.table.close_latch(key))
    }

    /// Whether the sync waits.
    pub fn waits(&self, sync: SyncKey) -> bool {
        self.table.waits(sync)
    }

    /// The sync waits no longer. Says whether it did.
    pub fn withdraw(&mut self, sync: SyncKey) -> bool {
        self.table.withdraw(sync)
    }
}
