//! A sync of one event: its guards are run, what it offers is collected, shown and waited for.

use crate::hub::{HubRef, Port};
use crate::latch::{self, Latch};
use crate::record::{Answered, Pick, Record, SHORT_LOOKS, Want};
use crate::sync;
use std::cell::Cell;
use std::mem;
use std::ops::Range;
use std::sync::Arc;
use std::time::Instant;

thread_local! {
    /// What this thread collects in, but while it does so: a guard may sync. It is kept, so that a sync takes no memory.
    static FORCING: Cell<Option<Box<Forcing>>> = const { Cell::new(None) };
    /// The record of this thread's syncs, but while one runs: a waker may run another in it.
    static RECORD: Cell<Option<Arc<Record>>> = const { Cell::new(None) };
}

/// Where more stand in a line, a thread lets nobody else run before it sleeps.
const CROWD: usize = 8;

/// How a sync waits.
pub(crate) struct Waiting {
    pub(crate) ticket: u64,
    /// How many wait in line with it.
    crowd: usize,
}

/// What a sync collects while it runs guards, and what it waits by. Dropped before the sync was performed (a guard has
/// panicked), it fires the nacks.
#[doc(hidden)]
#[derive(Default)]
pub struct Forcing {
    bases: u32,
    wants: Vec<Want>,
    /// Latches, and the base event that each is.
    latches: Vec<(Arc<Latch>, u32)>,
    /// Where the sync stands in the list of each latch.
    entries: Vec<usize>,
    hub: Option<HubRef>,
    deadline: Option<(Instant, u32)>,
    always: Option<u32>,
    /// Nacks, and the base events that each encloses.
    nacks: Vec<(Arc<Latch>, Range<u32>)>,
}

impl Forcing {
    pub(crate) fn new() -> Box<Forcing> {
        FORCING.try_with(Cell::take).ok().flatten().unwrap_or_default()
    }

    // ---- what events offer

    /// The number of the next base event.
    pub(crate) fn bases(&self) -> u32 {
        self.bases
    }

    fn base(&mut self) -> u32 {
        self.bases += 1;
        self.bases - 1
    }

    /// Offers to send what lies there, or to receive: the number of this base event.
    pub(crate) fn want(&mut self, port: &Arc<Port>, is_send: bool, value: u32) -> u32 {
        match &self.hub {
            None => self.hub = Some(port.hub.clone()),
            Some(hub) => assert!(hub.is(&port.hub), "channels of two hubs in one choice"),
        }
        let base = self.base();
        self.wants.push(port.want(base, is_send, value));
        base
    }

    pub(crate) fn always(&mut self) {
        let base = self.base();
        self.always.get_or_insert(base);
    }

    pub(crate) fn deadline(&mut self, time: Instant) {
        let base = self.base();
        if self.deadline.is_none_or(|(earliest, _)| time < earliest) {
            self.deadline = Some((time, base));
        }
    }

    pub(crate) fn latch(&mut self, latch: Arc<Latch>) {
        let base = self.base();
        self.latches.push((latch, base));
    }

    /// Adds a nack. Its scope is empty until it is known: so a panic fires it.
    pub(crate) fn nack(&mut self, latch: Arc<Latch>) -> usize {
        self.nacks.push((latch, 0..0));
        self.nacks.len() - 1
    }

    /// The nack encloses the base events from that one on.
    pub(crate) fn enclose(&mut self, nack: usize, from: u32) {
        self.nacks[nack].1 = from..self.bases;
    }

    // ---- the sync

    /// Runs the sync in this thread, up to its answer.
    pub(crate) fn perform(&mut self) -> (Arc<Record>, Answered) {
        let own = RECORD.try_with(Cell::take).ok().flatten();
        let record = own.unwrap_or_else(Record::of_this_thread);
        let answered = match self.start(&record) {
            Ok(answered) => answered,
            Err(waiting) => self.sleep(&record, waiting),
        };
        (record, answered)
    }

    /// Begins a sync: its answer, or how it waits.
    pub(crate) fn start(&mut self, record: &Arc<Record>) -> Result<Answered, Waiting> {
        let fired = self.latches.iter().find(|(latch, _)| latch.has_fired()).map(|(_, base)| *base);
        let is_over = |(time, _): &(Instant, u32)| sync::now() >= *time;
        let always = fired.or(self.always).or_else(|| self.deadline.filter(is_over).map(|(_, base)| base));
        if let (None, Some(base)) = (&self.hub, always) {
            return Ok(Answered { pick: Pick { base, number: 0 }, wants: mem::take(&mut self.wants) });
        }
        let wants = self.wants.len();
        // in another order each time, so that none comes always first
        if wants > 1 {
            self.wants.rotate_left(sync::dice() as usize % wants);
        }
        let ticket = record.begin(mem::take(&mut self.wants), always);
        let hub = self.hub.as_ref();
        let crowd = match hub.map(|hub| hub.enter(record, ticket, wants, always.is_none())) {
            Some(Ok(answered)) => return Ok(answered),
            Some(Err(others)) => others,
            None => 0,
        };
        let entries = self.latches.iter().map(|(latch, base)| latch.enter(record, ticket, *base, hub));
        self.entries.extend(entries);
        Err(Waiting { ticket, crowd })
    }

    /// Answers the sync by a base event that stands in no table, where it has no answer yet.
    pub(crate) fn alarm(&self, record: &Arc<Record>, ticket: u64, base: u32) -> bool {
        latch::alarm(record, ticket, base, self.hub.as_ref())
    }

    /// When the sync is answered by which base event, if nothing else is, and in which hub it stands.
    pub(crate) fn due(&self) -> Option<(Instant, u32, Option<HubRef>)> {
        self.deadline.map(|(time, base)| (time, base, self.hub.clone()))
    }

    fn sleep(&mut self, record: &Arc<Record>, Waiting { ticket, crowd }: Waiting) -> Answered {
        let spin = self.hub.as_ref().map_or(0, |hub| hub.config.spin);
        // of many in line, who lets others run has his turn before all who sleep
        let looks = if crowd > CROWD { spin.min(SHORT_LOOKS) } else { spin };
        loop {
            record.sleep(looks, self.deadline.map(|(time, _)| time));
            if let Some((time, base)) = self.deadline
                && sync::now() >= time
            {
                self.alarm(record, ticket, base);
            }
            if let Some(answered) = record.settled() {
                return answered;
            }
        }
    }

    /// What follows an answer: no latch knows of the sync any more, and its nacks fire.
    pub(crate) fn end(mut self: Box<Self>, record: &Arc<Record>, answered: Answered) {
        if !self.latches.is_empty() {
            for ((latch, _), entry) in self.latches.drain(..).zip(self.entries.drain(..)) {
                latch.leave(record, entry);
            }
        }
        if !self.nacks.is_empty() {
            let is_lost = |(_, scope): &(Arc<Latch>, Range<u32>)| !scope.contains(&answered.pick.base);
            self.nacks.drain(..).filter(is_lost).for_each(|(latch, _)| latch.fire());
        }
        self.bases = 0;
        self.wants = answered.wants;
        (self.hub, self.deadline, self.always) = (None, None, None);
        let _ = FORCING.try_with(|own| own.set(Some(self)));
    }

    /// The same for a sync of this thread, whose record it may use again.
    pub(crate) fn end_here(self: Box<Self>, record: Arc<Record>, answered: Answered) {
        self.end(&record, answered);
        let _ = RECORD.try_with(|own| own.set(Some(record)));
    }
}

impl Drop for Forcing {
    fn drop(&mut self) {
        // some are left where a guard has panicked
        for (latch, _) in mem::take(&mut self.nacks) {
            latch.fire();
        }
    }
}
