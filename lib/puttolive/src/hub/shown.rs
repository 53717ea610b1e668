//! How many wants stand in the table, by channel and side: so a sync that would wait may know that nobody there meets it.

use crate::record::Want;
use crate::sync::atomic::{AtomicU32, Ordering::SeqCst};

/// How many counts there are: wants of channels that share one are taken for those of either.
const COUNTS: usize = 1024;

pub(super) struct Shown {
    counts: Vec<AtomicU32>,
}

impl Shown {
    pub(super) fn new() -> Shown {
        Shown { counts: (0..COUNTS).map(|_| AtomicU32::new(0)).collect() }
    }

    fn count(&self, channel: u64, is_send: bool) -> &AtomicU32 {
        &self.counts[(2 * channel as usize + usize::from(is_send)) % COUNTS]
    }

    /// These wants are about to stand in the table.
    pub(super) fn add(&self, wants: &[Want]) {
        for want in wants {
            self.count(want.channel, want.is_send).fetch_add(1, SeqCst);
        }
    }

    /// These wants stand in the table no longer.
    pub(super) fn remove(&self, wants: &[Want]) {
        for want in wants {
            self.count(want.channel, want.is_send).fetch_sub(1, SeqCst);
        }
    }

    /// Whether somebody in the table may meet the want.
    pub(super) fn may_meet(&self, want: &Want) -> bool {
        self.count(want.channel, !want.is_send).load(SeqCst) > 0
    }
}
