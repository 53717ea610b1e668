//! The engine as a plain list of those who wait, the oldest first. It is slow, and easily seen to be right.

use crate::engine::{Answer, Answered, ChannelKey, Kind, LatchKey, Offer, SyncKey};

/// A sync that waits.
pub struct Sync {
    pub key: SyncKey,
    pub offers: Vec<Offer>,
}

#[derive(Default)]
pub struct Model {
    /// The oldest first.
    pub syncs: Vec<Sync>,
    pub channels: Vec<ChannelKey>,
    pub latches: Vec<LatchKey>,
    pub fired: Vec<LatchKey>,
    /// The generation that the next key has at least.
    least: u64,
}

/// The offer that meets it.
fn other_side(offer: Offer) -> Option<Offer> {
    match offer {
        Offer::Send(channel) => Some(Offer::Receive(channel)),
        Offer::Receive(channel) => Some(Offer::Send(channel)),
        Offer::Latch(_) | Offer::Always => None,
    }
}

impl Model {
    pub fn knows(&self, offer: Offer) -> bool {
        match offer {
            Offer::Send(channel) | Offer::Receive(channel) => self.channels.contains(&channel),
            Offer::Latch(latch) => self.latches.contains(&latch),
            Offer::Always => true,
        }
    }

    /// Where the oldest stands that waits with this offer.
    fn oldest(&self, offer: Offer) -> Option<usize> {
        self.syncs.iter().position(|sync| sync.offers.contains(&offer))
    }

    pub fn is_ready(&self, offer: Offer) -> bool {
        match offer {
            Offer::Always => true,
            Offer::Latch(latch) => self.fired.contains(&latch),
            Offer::Send(_) | Offer::Receive(_) => other_side(offer).is_some_and(|theirs| self.oldest(theirs).is_some()),
        }
    }

    /// No key has a generation that an earlier one had.
    fn given(&mut self, generation: u64) {
        assert!(generation >= self.least, "a generation is given again");
        self.least = generation + 1;
    }

    pub fn channel_opened(&mut self, key: ChannelKey) {
        self.given(key.generation);
        self.channels.push(key);
    }

    pub fn latch_opened(&mut self, key: LatchKey) {
        self.given(key.generation);
        self.latches.push(key);
    }

    /// A sync has come to wait, because none of its offers is ready.
    pub fn came(&mut self, key: SyncKey, offers: &[Offer]) {
        assert!(!offers.iter().any(|offer| self.is_ready(*offer)), "a sync waits that could go on");
        self.given(key.generation);
        self.syncs.push(Sync { key, offers: offers.to_vec() });
    }

    /// A sync with these offers was answered, or was not because none is ready.
    pub fn polled(&mut self, offers: &[Offer], answer: Option<Answer>) {
        let Some(answer) = answer else {
            assert!(!offers.iter().any(|offer| self.is_ready(*offer)), "an offer is ready, and not answered");
            return;
        };
        let own = offers[answer.own];
        match answer.kind {
            Kind::Always => assert_eq!(own, Offer::Always),
            Kind::Latch => assert!(matches!(own, Offer::Latch(latch) if self.fired.contains(&latch))),
            Kind::Partner { sync, other } => {
                let theirs = other_side(own).expect("nobody meets it");
                self.leaves(theirs, Answered { sync, own: other });
            }
        }
    }

    /// The oldest that waits with this offer was answered.
    fn leaves(&mut self, offer: Offer, answered: Answered) {
        let at = self.oldest(offer).expect("nobody waits with it");
        assert_eq!(self.syncs[at].key, answered.sync, "another than the oldest is answered");
        assert_eq!(self.syncs[at].offers[answered.own], offer, "another of its offers is answered");
        self.syncs.remove(at);
    }

    /// Of those that wait with one of these offers the oldest was answered, by the first offer that anybody waits with.
    /// Says whether anybody was.
    pub fn taken(&mut self, offers: &[Offer], answered: Option<Answered>) -> bool {
        let waited = offers.iter().copied().find(|offer| self.oldest(*offer).is_some());
        assert_eq!(waited.is_some(), answered.is_some(), "somebody waits");
        if let (Some(offer), Some(answered)) = (waited, answered) {
            self.leaves(offer, answered);
        }
        waited.is_some()
    }

    pub fn waits(&self, key: SyncKey) -> bool {
        self.syncs.iter().any(|sync| sync.key == key)
    }

    /// The sync waits no longer. Says whether it did.
    pub fn withdrew(&mut self, key: SyncKey) -> bool {
        let waited = self.waits(key);
        self.syncs.retain(|sync| sync.key != key);
        waited
    }
}
