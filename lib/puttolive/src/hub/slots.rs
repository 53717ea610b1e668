//! Slots, the threads of the table that syncs borrow, and passes, by which the table is called.
//!
//! A table has as many slots as are in use, and so many more rows of each: who looks for a partner looks at each slot. It
//! begins with few. Where all are in use the next table has twice as many, up to the hub's measure.

use super::seasons::Cause;
use super::{Config, HubCore, Visit};
use crate::record::Record;
use crate::sync::atomic::{AtomicBool, AtomicU16, AtomicU32, Ordering::SeqCst};
use crate::sync::{self, Mutex, MutexGuard, lock, try_lock};
use crate::table::Pass;
use std::cell::Cell;
use std::sync::Arc;

#[derive(Default)]
pub(super) struct Slot {
    pub(super) is_busy: AtomicBool,
    /// The next row of this thread of the table. It changes under a pass by whoever has the slot, and under all passes.
    pub(super) next: AtomicU16,
    /// Who stands in the row before it. It is set and taken under that sync's job.
    pub(super) record: Mutex<Option<Arc<Record>>>,
}

impl Slot {
    fn has_row(&self, shape: Shape) -> bool {
        usize::from(self.next.load(SeqCst)) < shape.rows
    }

    /// Nobody stands here any more. The record goes behind the lock.
    pub(super) fn clear(&self) {
        let gone = lock(&self.record).take();
        drop(gone);
    }

    pub(super) fn guest(&self) -> Option<Arc<Record>> {
        lock(&self.record).clone()
    }
}

/// How many slots the table of a season has, and how many rows of each.
#[derive(Clone, Copy, Debug, PartialEq, Eq)]
pub(super) struct Shape {
    pub(super) slots: usize,
    pub(super) rows: usize,
}

/// No table has fewer slots, where the hub has as many.
const FEWEST: usize = 4;

impl Shape {
    /// That of the hub's first table.
    pub(super) fn first(config: &Config) -> Shape {
        Shape::of(config, FEWEST.min(config.slots.into()))
    }

    /// So many slots, with as many rows in all as the hub's measures give.
    fn of(config: &Config, slots: usize) -> Shape {
        let rows = usize::from(config.slots) * usize::from(config.rows) / slots;
        Shape { slots, rows: rows.min(1024) }
    }

    /// Twice as many slots, up to the hub's measure.
    pub(super) fn wider(self, config: &Config) -> Shape {
        Shape::of(config, (2 * self.slots).min(config.slots.into()))
    }

    /// Half as many slots, down to the fewest, where that leaves three of four free and none in use goes: `busy` are in use,
    /// below `end`.
    pub(super) fn narrower(self, config: &Config, busy: usize, end: usize) -> Shape {
        let half = self.slots / 2;
        if half < FEWEST || busy * 4 > half || half < end { self } else { Shape::of(config, half) }
    }

    fn pack(self) -> u32 {
        (self.slots << 16 | self.rows) as u32
    }

    fn unpack(word: u32) -> Shape {
        Shape { slots: (word >> 16) as usize, rows: (word & 0xffff) as usize }
    }
}

/// The shape of the season's table. It changes under all passes.
pub(super) struct SharedShape(AtomicU32);

impl SharedShape {
    pub(super) fn new(shape: Shape) -> SharedShape {
        SharedShape(AtomicU32::new(shape.pack()))
    }

    pub(super) fn get(&self) -> Shape {
        Shape::unpack(self.0.load(SeqCst))
    }

    pub(super) fn set(&self, shape: Shape) {
        self.0.store(shape.pack(), SeqCst);
    }
}

thread_local! {
    /// The slot that this thread asks for first.
    static HINT: Cell<Option<usize>> = const { Cell::new(None) };
}

pub(super) fn hint() -> usize {
    let known = HINT.try_with(Cell::get).ok().flatten();
    known.unwrap_or_else(|| sync::dice() as usize % 64)
}

fn set_hint(slot: usize) {
    // a thread that ends has none
    let _ = HINT.try_with(|hint| hint.set(Some(slot)));
}

impl HubCore {
    /// A slot that nobody has, with a row left: whoever stays is not put out for it.
    pub(super) fn claim<'a>(&'a self, stays: Option<&Arc<Record>>, visit: &mut Visit<'a>) -> usize {
        let first = hint();
        loop {
            let season = self.season.load(SeqCst);
            let shape = self.shape.get();
            let mut is_spent = false;
            for number in (0..shape.slots).map(|step| (first + step) % shape.slots) {
                let slot = &self.slots[number].0;
                if slot.is_busy.load(SeqCst) {
                    continue;
                }
                if !slot.has_row(shape) {
                    is_spent = true;
                } else if !slot.is_busy.swap(true, SeqCst) {
                    if slot.has_row(shape) {
                        set_hint(number);
                        self.busy.0.fetch_add(1, SeqCst);
                        return number;
                    }
                    slot.is_busy.store(false, SeqCst);
                    is_spent = true;
                }
            }
            if is_spent {
                self.turn(season, Cause::Spent);
            } else if shape.slots < self.slots.len() {
                self.turn(season, Cause::Full);
            } else if let Some(slot) = self.claim_by_eviction(stays, visit) {
                return slot;
            }
        }
    }

    /// The slot of a sync that waits in the table, and is put out.
    fn claim_by_eviction<'a>(&'a self, stays: Option<&Arc<Record>>, visit: &mut Visit<'a>) -> Option<usize> {
        visit.take_room();
        match self.evict(stays) {
            Some(slot) if self.is_seat(slot) => return Some(slot),
            Some(slot) => self.release(slot),
            None => sync::pass_on(),
        }
        None
    }

    /// Whether the slot is one of the table, with a row left. Under a pass it stays so for whoever has it.
    pub(super) fn is_seat(&self, slot: usize) -> bool {
        let shape = self.shape.get();
        slot < shape.slots && self.slots[slot].0.has_row(shape)
    }

    /// Whether few slots are left, which then are for those who meet.
    pub(super) fn is_crowded(&self) -> bool {
        self.busy.0.load(SeqCst) + self.slots.len() / 8 >= self.slots.len()
    }

    pub(super) fn release(&self, slot: usize) {
        self.slots[slot].0.clear();
        self.busy.0.fetch_sub(1, SeqCst);
        self.slots[slot].0.is_busy.store(false, SeqCst);
    }

    /// Puts a sync out of the table that waits there, and hands over its slot.
    pub(super) fn evict(&self, stays: Option<&Arc<Record>>) -> Option<usize> {
        for _ in 0..self.slots.len() {
            let number = self.hand.fetch_add(1, SeqCst) % self.slots.len();
            let Some(record) = self.slots[number].0.guest() else {
                continue;
            };
            if stays.is_some_and(|stays| Arc::ptr_eq(stays, &record)) {
                continue;
            }
            if let Some(slot) = self.put_out(&record, |_, row| row.thread as usize == number) {
                return Some(slot);
            }
        }
        None
    }

    /// Some pass that nobody has in hand. Where the slot stands at its first row, it is the one that holds it.
    pub(super) fn pass_for(&self, slot: usize) -> MutexGuard<'_, Pass> {
        let home = slot % self.passes.len();
        let next = &self.slots[slot].0.next;
        loop {
            if next.load(SeqCst) == 0 {
                return lock(&self.passes[home].0);
            }
            let pass = self.any_pass(home);
            // no table ends while a pass is in hand
            if next.load(SeqCst) != 0 {
                return pass;
            }
        }
    }

    pub(super) fn any_pass(&self, first: usize) -> MutexGuard<'_, Pass> {
        let count = self.passes.len();
        let tried = (0..count).find_map(|step| try_lock(&self.passes[(first + step) % count].0));
        tried.unwrap_or_else(|| lock(&self.passes[first % count].0))
    }
}
