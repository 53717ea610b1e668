//! Latches: what happens once, and is seen by all who ask then or later. Nacks, the ends of threads, closed halves and
//! signals of the user are latches. A latch stands in no table.

use crate::hub::HubRef;
use crate::record::Record;
use crate::sync::atomic::{AtomicBool, Ordering::SeqCst};
use crate::sync::{Mutex, lock};
use std::sync::Arc;
use std::{fmt, mem};

#[derive(Default)]
pub(crate) struct Latch {
    has_fired: AtomicBool,
    entries: Mutex<Entries>,
}

/// A sync that waits for a latch, and the base event that the latch is in it.
struct Entry {
    record: Arc<Record>,
    ticket: u64,
    base: u32,
    hub: Option<HubRef>,
}

#[derive(Default)]
struct Entries {
    places: Vec<Option<Entry>>,
    free: Vec<usize>,
}

impl Entries {
    fn put(&mut self, entry: Entry) -> usize {
        match self.free.pop() {
            Some(at) => {
                self.places[at] = Some(entry);
                at
            }
            None => {
                self.places.push(Some(entry));
                self.places.len() - 1
            }
        }
    }
}

impl fmt::Debug for Latch {
    fn fmt(&self, formatter: &mut fmt::Formatter<'_>) -> fmt::Result {
        formatter.debug_struct("Latch").field("has_fired", &self.has_fired()).finish()
    }
}

impl Latch {
    pub(crate) fn has_fired(&self) -> bool {
        self.has_fired.load(SeqCst)
    }

    /// Fires the latch, and answers the syncs that wait for it, where they have no other answer.
    pub(crate) fn fire(&self) {
        let entries = {
            let mut entries = lock(&self.entries);
            self.has_fired.store(true, SeqCst);
            mem::take(&mut *entries)
        };
        for entry in entries.places.into_iter().flatten() {
            alarm(&entry.record, entry.ticket, entry.base, entry.hub.as_ref());
        }
    }

    /// From now on whoever fires the latch knows of the sync. Where it was fired before, the sync is told at once.
    pub(crate) fn enter(&self, record: &Arc<Record>, ticket: u64, base: u32, hub: Option<&HubRef>) -> usize {
        {
            let mut entries = lock(&self.entries);
            if !self.has_fired() {
                return entries.put(Entry { record: record.clone(), ticket, base, hub: hub.cloned() });
            }
        }
        alarm(record, ticket, base, hub);
        0
    }

    /// The sync does not wait for the latch any more.
    pub(crate) fn leave(&self, record: &Arc<Record>, at: usize) {
        let mut entries = lock(&self.entries);
        let is_there = |place: &mut Option<Entry>| {
            place.as_ref().is_some_and(|entry| Arc::ptr_eq(&entry.record, record)).then(|| place.take())
        };
        if let Some(entry) = entries.places.get_mut(at).and_then(is_there) {
            entries.free.push(at);
            drop(entries);
            drop(entry);
        }
    }
}

/// Answers a sync by a base event that stands in no table. False where it has its answer already.
pub(crate) fn alarm(record: &Arc<Record>, ticket: u64, base: u32, hub: Option<&HubRef>) -> bool {
    match hub {
        Some(hub) => hub.alarm(record, ticket, base),
        None => record.settle(ticket, base),
    }
}
