// Made by tools/erase of crates/engine/src/table.rt, and not to be edited.

//! The syncs that wait, and what is open.

use crate::engine::channels::{Channel, Side, StandFault, Waiting, Who};
use crate::engine::held::{Latch, Offered};
use crate::engine::lines::{stand, take_live};
use crate::engine::offers::{Answer, Answered, ChannelKey, Entered, Kind, LatchKey, Offer, Refusal, SyncKey};
use crate::engine::order::Order;
use crate::engine::places::Places;
use crate::engine::shim::AllocError;

/// The syncs that wait, and what is open.
pub(crate) struct Table {
    pub(crate) syncs: Places<Offered>,
    pub(crate) channels: Places<Channel>,
    pub(crate) latches: Places<Latch>,
    /// The generation of what is opened, or comes to wait, next.
    pub(crate) next: u64,
}

/// A sync takes a place.
fn sit(syncs: &mut Places<Offered>, generation: u64, offers: &[Offer]) -> Result<u32, AllocError> {
    let index = syncs.free_place(Offered::new())?;
    syncs.slots[index as usize].value.fill(offers)?;
    syncs.begin(index, generation);
    Ok(index)
}

impl Table {
    /// Nobody waits, and nothing is open.
    pub(crate) fn new() -> Table {
        Table { syncs: Places::new(), channels: Places::new(), latches: Places::new(), next: 0 }
    }

    /// Opens a channel.
    pub(crate) fn open_channel(&mut self) -> Result<ChannelKey, AllocError> {
        let generation = self.next;
        let Some(next) = generation.checked_add(1) else {
            return Err(AllocError);
        };
        let index = self.channels.open(generation, Channel::new())?;
        self.next = next;
        Ok(ChannelKey { index, generation })
    }

    /// Opens a latch.
    pub(crate) fn open_latch(&mut self) -> Result<LatchKey, AllocError> {
        let generation = self.next;
        let Some(next) = generation.checked_add(1) else {
            return Err(AllocError);
        };
        let index = self.latches.open(generation, Latch::new())?;
        self.next = next;
        Ok(LatchKey { index, generation })
    }

    /// Whether the channel is open, or the latch.
    #[inline]
    pub(crate) fn is_known(&self, offer: Offer) -> bool {
        match offer {
            Offer::Send(key) | Offer::Receive(key) => self.channels.holds(key.index, key.generation),
            Offer::Latch(key) => self.latches.holds(key.index, key.generation),
            Offer::Always => true,
        }
    }

    /// Whether each offer is of what is open.
    #[inline]
    fn are_known(&self, offers: &[Offer]) -> bool {
        for offer in offers {
            if !self.is_known(*offer) {
                return false;
            }
        }
        true
    }

    /// How many offers there are, if each is of what is open, and they are few enough.
    #[inline]
    fn count(&self, offers: &[Offer]) -> Result<u32, Refusal> {
        if !self.are_known(offers) {
            return Err(Refusal::Unknown);
        }
        if offers.len() > u32::MAX as usize {
            return Err(Refusal::TooMany);
        }
        Ok(offers.len() as u32)
    }

    /// Takes the oldest out of the line of an offer whose sync waits. Those before him are dropped.
    #[inline(always)]
    fn take_from_line(&mut self, theirs: Offer) -> Option<Waiting> {
        match theirs {
            Offer::Send(key) => {
                let slot = &mut self.channels.slots[key.index as usize];
                take_live(&mut slot.value, Side::Send, &self.syncs)
            }
            Offer::Receive(key) => {
                let slot = &mut self.channels.slots[key.index as usize];
                take_live(&mut slot.value, Side::Receive, &self.syncs)
            }
            Offer::Latch(key) => {
                let slot = &mut self.latches.slots[key.index as usize];
                take_live(&mut slot.value.line, Side::Receive, &self.syncs)
            }
            Offer::Always => None,
        }
    }

    /// Lets somebody stand in the line of an offer.
    #[inline]
    fn stand_in_line(&mut self, offer: Offer, waiting: Waiting) -> Result<(), StandFault> {
        match offer {
            Offer::Send(key) => {
                let slot = &mut self.channels.slots[key.index as usize];
                stand(&mut slot.value, Side::Send, waiting, &self.syncs)
            }
            Offer::Receive(key) => {
                let slot = &mut self.channels.slots[key.index as usize];
                stand(&mut slot.value, Side::Receive, waiting, &self.syncs)
            }
            Offer::Latch(key) => {
                let slot = &mut self.latches.slots[key.index as usize];
                stand(&mut slot.value.line, Side::Receive, waiting, &self.syncs)
            }
            Offer::Always => unreachable!(),
        }
    }

    /// The oldest sync that waits with this offer leaves.
    #[inline(always)]
    fn take(&mut self, theirs: Offer) -> Option<Answered> {
        let waiting = self.take_from_line(theirs)?;
        self.syncs.leave(waiting.who.place);
        let sync = SyncKey { index: waiting.who.place, generation: waiting.ticket };
        Some(Answered { sync, own: waiting.who.own as usize })
    }

    /// Whether the latch, which is open, is fired.
    #[inline]
    fn is_fired(&self, latch: LatchKey) -> bool {
        self.latches.slots[latch.index as usize].value.fired
    }

    /// Answers this offer, if it is ready.
    #[inline(always)]
    fn answer(&mut self, own: usize, offer: Offer) -> Option<Answer> {
        let kind = match offer {
            Offer::Always => Kind::Always,
            Offer::Latch(latch) => {
                if !self.is_fired(latch) {
                    return None;
                }
                Kind::Latch
            }
            Offer::Send(_) | Offer::Receive(_) => {
                let taken = self.take(offer.other_side()?)?;
                Kind::Partner { sync: taken.sync, other: taken.own }
            }
        };
        Some(Answer { own, kind })
    }

    /// Answers the first offer in this order that is ready.
    #[inline]
    fn first_ready(&mut self, offers: &[Offer], mut order: Order) -> Option<Answer> {
        for _ in 0..offers.len() {
            let own = order.next() as usize;
            if let Some(answer) = self.answer(own, offers[own]) {
                return Some(answer);
            }
        }
        None
    }

    /// Answers one of the offers that is ready, if any is. For one offer no order is drawn.
    #[inline]
    fn ready(&mut self, offers: &[Offer], count: u32, number: u64) -> Option<Answer> {
        if let [offer] = offers {
            return self.answer(0, *offer);
        }
        self.first_ready(offers, Order::drawn(count, number))
    }

    /// Answers one of the offers that is ready.
    pub(crate) fn poll(&mut self, offers: &[Offer], number: u64) -> Result<Option<Answer>, Refusal> {
        let count = self.count(offers)?;
        Ok(self.ready(offers, count, number))
    }

    /// A sync takes a place, and is to stand in the lines.
    #[inline]
    fn place(&mut self, offers: &[Offer]) -> Result<SyncKey, AllocError> {
        let generation = self.next;
        let Some(next) = generation.checked_add(1) else {
            return Err(AllocError);
        };
        let index = sit(&mut self.syncs, generation, offers)?;
        self.next = next;
        Ok(SyncKey { index, generation })
    }

    /// Lets the sync stand in the line of each of its offers.
    #[inline]
    fn stand_in_lines(&mut self, offers: &[Offer], sync: SyncKey) -> Result<(), StandFault> {
        for own in 0..offers.len() {
            let waiting = Waiting { ticket: sync.generation, who: Who { place: sync.index, own: own as u32 } };
            self.stand_in_line(offers[own], waiting)?;
        }
        Ok(())
    }

    /// A sync comes to wait.
    fn add(&mut self, offers: &[Offer]) -> Result<SyncKey, AllocError> {
        let sync = self.place(offers)?;
        match self.stand_in_lines(offers, sync) {
            Ok(()) => Ok(sync),
            Err(_) => {
                self.syncs.leave(sync.index);
                Err(AllocError)
            }
        }
    }

    /// Answers one of the offers that is ready, or else lets the sync wait.
    pub(crate) fn enter(&mut self, offers: &[Offer], number: u64) -> Result<Entered, Refusal> {
        let count = self.count(offers)?;
        if let Some(answer) = self.ready(offers, count, number) {
            return Ok(Entered::Now(answer));
        }
        match self.add(offers) {
            Ok(sync) => Ok(Entered::Waits(sync)),
            Err(_) => Err(Refusal::Memory),
        }
    }

    /// Sets whether the latch, which is open, is fired.
    fn set_fired(&mut self, latch: LatchKey, fired: bool) {
        self.latches.slots[latch.index as usize].value.fired = fired;
    }

    /// Answers the oldest sync that waits for the latch, which is open. If none does, the latch is fired.
    pub(crate) fn fire(&mut self, latch: LatchKey) -> Option<Answered> {
        match self.take(Offer::Latch(latch)) {
            Some(answered) => Some(answered),
            None => {
                self.set_fired(latch, true);
                None
            }
        }
    }

    /// The latch, which is open, is fired no longer.
    pub(crate) fn renew(&mut self, latch: LatchKey) {
        self.set_fired(latch, false);
    }

    /// Answers the oldest sync that waits at the channel, which is open. If none does, the channel is closed.
    pub(crate) fn close_channel(&mut self, key: ChannelKey) -> Option<Answered> {
        if let Some(answered) = self.take(Offer::Send(key)) {
            return Some(answered);
        }
        if let Some(answered) = self.take(Offer::Receive(key)) {
            return Some(answered);
        }
        self.channels.leave(key.index);
        None
    }

    /// Answers the oldest sync that waits for the latch, which is open. If none does, the latch is closed.
    pub(crate) fn close_latch(&mut self, key: LatchKey) -> Option<Answered> {
        if let Some(answered) = self.take(Offer::Latch(key)) {
            return Some(answered);
        }
        self.latches.leave(key.index);
        None
    }

    /// Whether the sync waits.
    #[inline]
    pub(crate) fn waits(&self, sync: SyncKey) -> bool {
        self.syncs.holds(sync.index, sync.generation)
    }

    /// The sync waits no longer. Says whether it did.
    pub(crate) fn withdraw(&mut self, sync: SyncKey) -> bool {
        if !self.waits(sync) {
            return false;
        }
        self.syncs.leave(sync.index);
        true
    }
}
