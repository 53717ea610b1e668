// Made by tools/erase of crates/engine/src/offers.rt, and not to be edited.

//! What a sync offers, and how it is answered.

/// Names a channel that was opened. No two have the same key, even if one is closed.
#[derive(Clone, Copy, PartialEq, Eq, Debug)]
pub struct ChannelKey {
    /// Where it is kept.
    pub index: u32,
    /// Tells it from all others that were kept there.
    pub generation: u64,
}

/// Names a latch that was opened. No two have the same key, even if one is closed.
#[derive(Clone, Copy, PartialEq, Eq, Debug)]
pub struct LatchKey {
    /// Where it is kept.
    pub index: u32,
    /// Tells it from all others that were kept there.
    pub generation: u64,
}

/// Names a sync that waits. No two have the same key, even if one waits no longer.
#[derive(Clone, Copy, PartialEq, Eq, Debug)]
pub struct SyncKey {
    /// Where it is kept.
    pub index: u32,
    /// The later it came to wait, the higher.
    pub generation: u64,
}

/// One of the offers of a sync.
#[derive(Clone, Copy, PartialEq, Eq, Debug)]
pub enum Offer {
    /// To send on the channel.
    Send(ChannelKey),
    /// To receive on the channel.
    Receive(ChannelKey),
    /// To go on once the latch is fired.
    Latch(LatchKey),
    /// To go on at once.
    Always,
}

/// With what an offer is answered.
#[derive(Clone, Copy, PartialEq, Eq, Debug)]
pub enum Kind {
    /// This sync waited with an offer of the other side, and waits no longer.
    Partner {
        /// Whose offer it was.
        sync: SyncKey,
        /// Which of its offers.
        other: usize,
    },
    /// The latch is fired.
    Latch,
    /// Nothing is needed.
    Always,
}

/// Which offer of a sync is answered, and with what.
#[derive(Clone, Copy, PartialEq, Eq, Debug)]
pub struct Answer {
    /// Which offer.
    pub own: usize,
    /// With what.
    pub kind: Kind,
}

/// A sync that waited, and is answered.
#[derive(Clone, Copy, PartialEq, Eq, Debug)]
pub struct Answered {
    /// Which sync.
    pub sync: SyncKey,
    /// Which of its offers.
    pub own: usize,
}

/// What came of a sync.
#[derive(Clone, Copy, PartialEq, Eq, Debug)]
pub enum Entered {
    /// It is answered.
    Now(Answer),
    /// It waits.
    Waits(SyncKey),
}

/// Why a call did nothing.
#[derive(Clone, Copy, PartialEq, Eq, Debug)]
pub enum Refusal {
    /// A key names what is not open.
    Unknown,
    /// There are more than `u32::MAX` offers.
    TooMany,
    /// There is no memory.
    Memory,
}

impl Offer {
    /// The offer that it meets.
    #[inline]
    pub(crate) fn other_side(self) -> Option<Offer> {
        match self {
            Offer::Send(channel) => Some(Offer::Receive(channel)),
            Offer::Receive(channel) => Some(Offer::Send(channel)),
            Offer::Latch(_) | Offer::Always => None,
        }
    }
}
