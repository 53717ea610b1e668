// Made by tools/erase of crates/channels/src/waiting.rt, and not to be edited.

//! Who waits, and on which side.

/// The two sides of a channel.
#[derive(Clone, Copy, PartialEq, Eq, Debug)]
pub enum Side {
    /// Whoever would send.
    Send,
    /// Whoever would receive.
    Receive,
}

/// Names who waits. Its meaning is the caller's.
#[derive(Clone, Copy, PartialEq, Eq, Debug)]
pub struct Who {
    /// Where the caller keeps him.
    pub place: u32,
    /// Which of his offers this is.
    pub own: u32,
}

/// Somebody who stands in a line.
#[derive(Clone, Copy, PartialEq, Eq, Debug)]
pub struct Waiting {
    /// What all his offers have in common. No two of one ticket meet.
    pub ticket: u64,
    /// Who he is.
    pub who: Who,
}

/// Why somebody cannot stand in a line.
#[derive(Clone, Copy, PartialEq, Eq, Debug)]
pub enum StandFault {
    /// Somebody of another ticket stands on the other side: he has to be asked first.
    Ready,
    /// The channel is closed.
    Closed,
    /// There is no memory.
    Memory,
}

impl Side {
    /// The other side.
    pub fn other(self) -> Side {
        match self {
            Side::Send => Side::Receive,
            Side::Receive => Side::Send,
        }
    }
}
