// Made by tools/erase of crates/engine/src/held.rt, and not to be edited.

//! What stands at the places of a table.

use crate::engine::channels::Channel;
use crate::engine::offers::Offer;
use crate::engine::shim::{AllocError, Vec};

/// The offers of a sync.
pub(crate) struct Offered {
    pub(crate) offers: Vec<Offer>,
}

/// A latch, and who waits for it.
pub(crate) struct Latch {
    pub(crate) fired: bool,
    /// Who waits stands to receive. Nobody stands to send.
    pub(crate) line: Channel,
}

impl Offered {
    /// No offers.
    #[inline]
    pub(crate) fn new() -> Offered {
        Offered { offers: Vec::new() }
    }

    /// Holds these offers in place of those before.
    #[inline]
    pub(crate) fn fill(&mut self, offers: &[Offer]) -> Result<(), AllocError> {
        self.offers.clear();
        self.offers.extend_from_slice(offers)?;
        Ok(())
    }
}

impl Latch {
    /// A latch that is not fired, and for which nobody waits.
    pub(crate) fn new() -> Latch {
        Latch { fired: false, line: Channel::new() }
    }
}
