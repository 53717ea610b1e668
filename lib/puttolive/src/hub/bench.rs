//! The bench: the syncs that stand in no row, by channel and side, in the order of their ages.

use crate::record::{Job, Place, Record, Want};
use crate::sync::atomic::{AtomicU32, AtomicUsize, Ordering::SeqCst};
use crate::sync::{Mutex, lock};
use std::collections::{BTreeMap, HashMap};
use std::sync::Arc;

/// A channel, and whether it is its senders.
type Lane = (u64, bool);

/// How many counts of wants there are: wants of channels that share one are looked for in vain.
const COUNTS: usize = 1024;

pub(super) struct Bench {
    seats: Mutex<Seats>,
    /// How many syncs are on it.
    syncs: AtomicUsize,
    /// How many wants are on it, by channel and side, modulo their number. Who finds 0 asks no further.
    wants: Vec<AtomicU32>,
}

#[derive(Default)]
struct Seats {
    /// The number that was given last.
    last: u64,
    /// By their ages.
    lanes: HashMap<Lane, BTreeMap<u64, Seat>>,
}

/// A want of a sync on the bench.
struct Seat {
    record: Arc<Record>,
    ticket: u64,
    want: usize,
    /// Who was put here later has a higher one.
    number: u64,
}

/// A sync on the bench that another may meet, by this want of it.
pub(super) struct Partner {
    pub(super) age: u64,
    pub(super) record: Arc<Record>,
    pub(super) ticket: u64,
    pub(super) want: usize,
}

fn own(want: &Want) -> Lane {
    (want.channel, want.is_send)
}

fn facing(want: &Want) -> Lane {
    (want.channel, !want.is_send)
}

impl Bench {
    pub(super) fn new() -> Bench {
        Bench {
            seats: Mutex::new(Seats::default()),
            syncs: AtomicUsize::new(0),
            wants: (0..COUNTS).map(|_| AtomicU32::new(0)).collect(),
        }
    }

    pub(super) fn is_empty(&self) -> bool {
        self.syncs.load(SeqCst) == 0
    }

    /// The number that was given last.
    pub(super) fn last(&self) -> u64 {
        lock(&self.seats).last
    }

    fn count(&self, (channel, is_send): Lane) -> &AtomicU32 {
        &self.wants[(2 * channel as usize + usize::from(is_send)) % COUNTS]
    }

    /// Whether somebody on the bench may meet the want.
    pub(super) fn may_meet(&self, want: &Want) -> bool {
        self.count(facing(want)).load(SeqCst) > 0
    }

    /// Whether another sync on the bench meets the want of this one.
    pub(super) fn has_partner(&self, record: &Arc<Record>, want: &Want) -> bool {
        if !self.may_meet(want) {
            return false;
        }
        let seats = lock(&self.seats);
        let mut lane = seats.lanes.get(&facing(want)).into_iter().flat_map(BTreeMap::values);
        lane.any(|seat| !Arc::ptr_eq(&seat.record, record))
    }

    /// The age of the first on the bench whom the want meets.
    pub(super) fn oldest(&self, want: &Want) -> Option<u64> {
        if !self.may_meet(want) {
            return None;
        }
        let seats = lock(&self.seats);
        seats.lanes.get(&facing(want))?.first_key_value().map(|(age, _)| *age)
    }

    /// Puts a sync onto the bench, by all its wants, where it is not there.
    pub(super) fn put(&self, job: &mut Job, record: &Arc<Record>) {
        if job.benched != 0 {
            return;
        }
        let mut seats = lock(&self.seats);
        seats.last += 1;
        job.benched = seats.last;
        let age = job.age();
        for (number, want) in job.wants.iter().enumerate() {
            let seat = Seat { record: record.clone(), ticket: job.ticket, want: number, number: job.benched };
            seats.lanes.entry(own(want)).or_default().insert(age, seat);
            self.count(own(want)).fetch_add(1, SeqCst);
        }
        self.syncs.fetch_add(1, SeqCst);
    }

    /// Takes a sync from the bench, where it is there. Its record is another one's too: none is dropped for good here.
    pub(super) fn remove(&self, job: &mut Job) {
        if job.benched != 0 {
            self.take_away(job);
        }
    }

    fn take_away(&self, job: &mut Job) {
        let mut seats = lock(&self.seats);
        for want in &job.wants {
            self.count(own(want)).fetch_sub(1, SeqCst);
            if let Some(lane) = seats.lanes.get_mut(&own(want)) {
                lane.remove(&job.age);
                if lane.is_empty() {
                    seats.lanes.remove(&own(want));
                }
            }
        }
        job.benched = 0;
        self.syncs.fetch_sub(1, SeqCst);
    }

    /// The oldest sync on the bench, of an age from that one on and put there with a number up to `last`, that meets this
    /// want of the sync, while that has no answer.
    pub(super) fn partner(
        &self,
        record: &Arc<Record>,
        ticket: u64,
        want: usize,
        from: u64,
        last: u64,
    ) -> Option<Partner> {
        let job = lock(&record.job);
        if job.ticket != ticket || matches!(job.place, Place::Idle | Place::Done(_)) {
            return None;
        }
        let seats = lock(&self.seats);
        let lane = seats.lanes.get(&facing(job.wants.get(want)?))?;
        let is_meant = |seat: &Seat| seat.number <= last && !Arc::ptr_eq(&seat.record, record);
        let (age, seat) = lane.range(from..).find(|(_, seat)| is_meant(seat))?;
        Some(Partner { age: *age, record: seat.record.clone(), ticket: seat.ticket, want: seat.want })
    }
}
