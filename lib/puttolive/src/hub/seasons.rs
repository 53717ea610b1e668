//! Seasons: a table whose rows are spent is ended, and the next one begins.

use super::slots::Shape;
use super::{Config, HubCore, WINDOW, ports};
use crate::record::{Place, Record};
use crate::sync::atomic::Ordering::SeqCst;
use crate::sync::{MutexGuard, lock};
use crate::table::{self, Found, OFFERS, Offer, Pass, Refused, Row};
use std::alloc::{Layout, handle_alloc_error};
use std::sync::Arc;
use std::time::Instant;

/// Why a table ends.
#[derive(Clone, Copy, Debug, PartialEq, Eq)]
pub(super) enum Cause {
    /// The rows of a free slot are spent.
    Spent,
    /// All slots are in use, and the hub may have more.
    Full,
}

/// A table has fewer slots than the one before only after so many that were never full.
const CALM: u32 = 8;

/// A sync that waits, and stays in its slot.
struct Staying {
    record: Arc<Record>,
    slot: usize,
    age: u64,
}

impl HubCore {
    /// A table, or the end of the program where no memory is left, as of any list.
    pub(super) fn table(config: &Config, shape: Shape) -> Vec<Pass> {
        let (slots, rows) = (shape.slots as u32, shape.rows as u32);
        match table::table(slots, rows, WINDOW as u32 + 1, config.passes.into()) {
            Ok(passes) => passes,
            Err(Refused::MEMORY) => handle_alloc_error(Layout::new::<[u64; 1024]>()),
            Err(refused) => unreachable!("the measures are in range: {refused:?}"),
        }
    }

    /// Ends the table if it is still the one of this season, and begins a new one, in which each sync that waits stands in
    /// row 0 of the slot that it had.
    pub(super) fn turn(&self, season: u64, cause: Cause) {
        let mut calm = lock(&self.turning);
        if self.season.load(SeqCst) != season {
            return;
        }
        // it is made while others go on; a slot that is claimed meanwhile may be none of it, and is given back
        let shape = self.next_shape(cause, &mut calm);
        let fresh = HubCore::table(&self.config, shape);
        let mut passes: Vec<_> = self.passes.iter().map(|pass| lock(&pass.0)).collect();
        let begun = Instant::now();
        let mut staying = self.who_stays(shape);
        staying.sort_by_key(|sync| sync.age);
        self.season.fetch_add(1, SeqCst);
        self.shape.set(shape);
        let swapped = passes.iter_mut().zip(fresh).map(|(pass, fresh)| std::mem::replace(&mut **pass, fresh));
        let ended: Vec<Pass> = swapped.collect();
        for sync in staying {
            self.seat_anew(&mut passes, &sync);
        }
        drop(passes);
        self.turning_nanoseconds.fetch_add(begun.elapsed().as_nanos() as u64, SeqCst);
        drop(calm);
        if self.is_audited {
            let commits = table::close(ended).expect("all passes of the table");
            let rows = table::audit(&commits).expect("a lawful ledger");
            self.audited.fetch_add(rows as u64, SeqCst);
        }
    }

    /// The shape of the next table, by why this one ends, by how many before it were never full, and by the slots in use.
    fn next_shape(&self, cause: Cause, calm: &mut u32) -> Shape {
        let shape = self.shape.get();
        if cause == Cause::Full {
            *calm = 0;
            return shape.wider(&self.config);
        }
        *calm += 1;
        if *calm < CALM {
            return shape;
        }
        let is_busy = |slot: &usize| self.slots[*slot].0.is_busy.load(SeqCst);
        let busy = (0..shape.slots).filter(is_busy).count();
        let end = (0..shape.slots).rfind(is_busy).map_or(0, |last| last + 1);
        shape.narrower(&self.config, busy, end)
    }

    /// Who stands in the table, under all passes, and stays in one of that shape. Whoever has stayed for a whole table before
    /// makes room where many wait.
    fn who_stays(&self, shape: Shape) -> Vec<Staying> {
        let mut staying = Vec::with_capacity(self.slots.len());
        for (slot, padded) in self.slots.iter().enumerate() {
            self.rows.fetch_add(padded.0.next.swap(0, SeqCst).into(), SeqCst);
            let Some(record) = padded.0.guest() else {
                continue;
            };
            let mut job = lock(&record.job);
            // it waits: whatever was committed is settled while no pass is in hand
            let Place::Table { from, .. } = job.place else { unreachable!("it stands in this slot") };
            if slot >= shape.slots || job.turns > 0 && staying.len() >= shape.slots / 2 {
                self.evictions.fetch_add(1, SeqCst);
                self.bench.put(&mut job, &record);
                self.shown.remove(job.window(from));
                ports::give_back(&mut job);
                job.place = Place::Out;
                self.release(slot);
            } else {
                job.turns += 1;
                let age = job.age();
                drop(job);
                staying.push(Staying { record, slot, age });
            }
        }
        staying
    }

    /// The sync stands in row 0 of its slot, under all passes. No two of them fit, which the law of the search says of the
    /// table before; of the new one it says so from a search on.
    fn seat_anew(&self, passes: &mut [MutexGuard<'_, Pass>], sync: &Staying) {
        let mut offers = [Offer::default(); OFFERS];
        let row = Row { thread: sync.slot as u32, sync: 0 };
        let mut job = lock(&sync.record.job);
        let Place::Table { from, .. } = job.place else { unreachable!("it stands in this slot") };
        let count = job.write_offers(from, &mut offers);
        self.slots[sync.slot].0.next.store(1, SeqCst);
        job.place = Place::Table { row, from };
        self.stand_in_lines(row, &mut job, from, 0);
        drop(job);
        let home = sync.slot % passes.len();
        let found = passes[home].begin(row, &offers[..count], None).expect("a held fresh row");
        assert!(found == Found::Left, "two that fit were left");
    }
}
