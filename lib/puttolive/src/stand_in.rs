//! A stand-in for the archive: the words of a table and the steps on them, over this crate's atomics, with a board for
//! the search. It is for drawn schedules, where the scheduler has to see each step, and for the test that plays both side
//! by side. Each method of [`Pass`] tests what the archive tests before the same steps, and answers the same.
//!
//! A row's words are its cell, the number of its offers, and for each offer what it is and the number that it sends.

use crate::sync::atomic::{AtomicU64, Ordering::SeqCst};
use crate::table::{Answer, Commit, Found, Grant, Message, Offer, Refused, Row};
use std::sync::Arc;

const RANGE: Refused = Refused(18);
const NO_ROW: Refused = Refused(19);
const NOT_HELD: Refused = Refused(20);
const OPENED: Refused = Refused(21);
const FRESH: Refused = Refused(22);

/// Channels are numbered by 8 bits, and each has a lane a side.
const LANES: usize = 512;

/// How a row is committed.
#[derive(Clone, Copy, Debug, PartialEq, Eq)]
struct Joined {
    own: u32,
    partner: Option<(Row, u32)>,
    stamp: u32,
}

#[derive(Clone, Copy, Debug, PartialEq, Eq)]
enum Cell {
    Fresh,
    Waiting,
    Claimed,
    Synched(Joined),
    Taken(Joined),
}

/// What came of trying to commit two rows.
#[derive(Clone, Copy, Debug, PartialEq, Eq)]
pub(crate) enum Attempt {
    Met,
    Gone,
    Mine,
    Busy,
    Unfit,
}

struct Table {
    threads: u32,
    rows: u32,
    offers: u32,
    words: Vec<AtomicU64>,
    /// How many rows of each thread were searched for.
    counts: Vec<AtomicU64>,
    /// Which threads have offered on a channel and side.
    lanes: Vec<AtomicU64>,
}

/// A place at a table. It holds rows, and is used by one thread at a time.
pub(crate) struct Pass {
    table: Arc<Table>,
    held: Vec<bool>,
}

/// A table of 1 to 64 threads of 1 to 1,024 rows, whose rows have room for 1 to 8 offers, with 1 to 16 passes.
pub(crate) fn table(threads: u32, rows: u32, offers: u32, count: usize) -> Result<Vec<Pass>, Refused> {
    let in_range = (1..=64).contains(&threads) && (1..=1024).contains(&rows) && (1..=8).contains(&offers);
    if !in_range || !(1..=16).contains(&count) {
        return Err(RANGE);
    }
    let zeroes = |count: u32| (0..count).map(|_| AtomicU64::new(0)).collect::<Vec<_>>();
    let table = Arc::new(Table {
        threads,
        rows,
        offers,
        words: zeroes(threads * rows * (2 + 2 * offers)),
        counts: zeroes(threads),
        lanes: zeroes(LANES as u32),
    });
    let places = (threads * (rows + 1)) as usize;
    let pass = |number: usize| {
        let mut pass = Pass { table: table.clone(), held: vec![false; places] };
        for thread in (0..threads).filter(|thread| *thread as usize % count == number) {
            pass.hold(Row { thread, sync: 0 });
        }
        pass
    };
    Ok((0..count).map(pass).collect())
}

/// Ends a table by all its passes: its commits in the order of their stamps.
pub(crate) fn close(passes: Vec<Pass>) -> Result<Vec<Commit>, Refused> {
    let Some(pass) = passes.first() else {
        return Ok(Vec::new());
    };
    let mut commits = Vec::new();
    for thread in 0..pass.table.threads {
        for sync in 0..pass.table.rows {
            commits.extend(pass.table.commit(Row { thread, sync }));
        }
    }
    commits.sort_by_key(|commit| commit.stamp);
    Ok(commits)
}

impl Table {
    fn has(&self, row: Row) -> bool {
        row.thread < self.threads && row.sync < self.rows
    }

    fn word(&self, row: Row, place: u32) -> &AtomicU64 {
        let row = row.thread * self.rows + row.sync;
        &self.words[(row * (2 + 2 * self.offers) + place) as usize]
    }

    fn cell(&self, row: Row) -> Cell {
        unpack(self.word(row, 0).load(SeqCst))
    }

    fn joined(&self, row: Row) -> Option<Joined> {
        match self.cell(row) {
            Cell::Synched(joined) | Cell::Taken(joined) => Some(joined),
            _ => None,
        }
    }

    /// Kind and channel of an offer of a row.
    fn offer(&self, row: Row, number: u32) -> Option<(u32, u32)> {
        let count = self.word(row, 1).load(SeqCst);
        let word = (u64::from(number) < count).then(|| self.word(row, 2 + 2 * number).load(SeqCst))?;
        Some(((word & 7) as u32, (word >> 3) as u32))
    }

    fn number(&self, row: Row, number: u32) -> u32 {
        self.word(row, 3 + 2 * number).load(SeqCst) as u32
    }

    fn last_stamp(&self, row: Row) -> u32 {
        let before = row.sync.checked_sub(1).map(|sync| Row { sync, ..row });
        before.and_then(|row| self.joined(row)).map_or(0, |joined| joined.stamp)
    }

    fn commit(&self, row: Row) -> Option<Commit> {
        let joined = self.joined(row)?;
        let (kind, of) = self.offer(row, joined.own)?;
        let pair = Commit { stamp: joined.stamp, sender: row, sent: joined.own, of, ..Commit::default() };
        match joined.partner {
            _ if kind == Offer::RECV => None,
            Some((receiver, received)) => {
                let mut message = Message { count: 1, ..Message::default() };
                message.atoms[0].value = self.number(row, joined.own);
                Some(Commit { kind: 0, receiver, received, message, ..pair })
            }
            None => Some(Commit { kind: 1, receiver: row, received: joined.own, of: 0, ..pair }),
        }
    }

    fn attempt(&self, mine: Row, own: u32, other: Row, partner: u32) -> Attempt {
        if mine.thread == other.thread || self.cell(other) == Cell::Fresh {
            return Attempt::Unfit;
        }
        let (Some(offer), Some(facing)) = (self.offer(mine, own), self.offer(other, partner)) else {
            return Attempt::Unfit;
        };
        if !meets(offer, facing) {
            return Attempt::Unfit;
        }
        let stamp = 1 + self.last_stamp(mine).max(self.last_stamp(other));
        if self.word(mine, 0).compare_exchange(WAITING, CLAIMED, SeqCst, SeqCst).is_err() {
            return Attempt::Mine;
        }
        // here others see the claim
        crate::sync::hold_up();
        let joined = Joined { own: partner, partner: Some((mine, own)), stamp };
        match self.word(other, 0).compare_exchange(WAITING, pack(SYNCHED, joined), SeqCst, SeqCst) {
            Ok(_) => {
                let joined = Joined { own, partner: Some((other, partner)), stamp };
                self.word(mine, 0).store(pack(SYNCHED, joined), SeqCst);
                Attempt::Met
            }
            Err(found) => {
                self.word(mine, 0).store(WAITING, SeqCst);
                if found == CLAIMED { Attempt::Busy } else { Attempt::Gone }
            }
        }
    }

    /// Tries to commit the row with the newest of a thread, by its offer.
    fn try_thread(&self, row: Row, own: u32, thread: u32) -> Attempt {
        let count = self.counts[thread as usize].load(SeqCst);
        let Some(sync) = count.checked_sub(1) else {
            return Attempt::Gone;
        };
        let other = Row { thread, sync: sync as u32 };
        if !matches!(self.cell(other), Cell::Waiting | Cell::Claimed) {
            return Attempt::Gone;
        }
        let Some(offer) = self.offer(row, own) else {
            return Attempt::Unfit;
        };
        let mut partners = (0..self.offers).map_while(|number| self.offer(other, number));
        match partners.position(|facing| meets(offer, facing)) {
            Some(partner) => self.attempt(row, own, other, partner as u32),
            None => Attempt::Unfit,
        }
    }

    /// Tells of the row on the board.
    fn publish(&self, row: Row) {
        self.counts[row.thread as usize].fetch_max(u64::from(row.sync) + 1, SeqCst);
        for (own, _) in (0..self.offers).map_while(|number| self.offer(row, number)).filter_map(lanes) {
            let bit = 1 << row.thread;
            if self.lanes[own].load(SeqCst) & bit == 0 {
                self.lanes[own].fetch_or(bit, SeqCst);
            }
        }
    }

    fn search(&self, row: Row, first: Option<u32>) -> Found {
        self.publish(row);
        let mut is_held_up = false;
        let mut tried = |own: u32, thread: u32| match self.try_thread(row, own, thread) {
            Attempt::Met => {
                let sync = self.joined(row).and_then(|joined| joined.partner).map_or(0, |(partner, _)| partner.sync);
                Some(Found::Met(Row { thread, sync }))
            }
            Attempt::Mine => Some(Found::Already),
            Attempt::Busy => {
                is_held_up = true;
                None
            }
            Attempt::Gone | Attempt::Unfit => None,
        };
        let first = first.filter(|thread| *thread < self.threads && *thread != row.thread);
        if let Some(thread) = first {
            for own in 0..self.offers {
                if let Some(found) = tried(own, thread) {
                    return found;
                }
            }
        }
        for own in 0..self.offers {
            let Some((_, facing)) = self.offer(row, own).and_then(lanes) else {
                continue;
            };
            let there = self.lanes[facing].load(SeqCst) & !(1 << row.thread);
            for thread in (0..self.threads).filter(|thread| there >> thread & 1 == 1) {
                if let Some(found) = tried(own, thread) {
                    return found;
                }
            }
        }
        match self.joined(row) {
            _ if is_held_up => Found::Again,
            // it was committed by another while it looked
            Some(_) => Found::Already,
            None => Found::Left,
        }
    }
}

impl Pass {
    fn place(&self, row: Row) -> usize {
        (row.thread * (self.table.rows + 1) + row.sync) as usize
    }

    fn hold(&mut self, row: Row) {
        let place = self.place(row);
        self.held[place] = true;
    }

    pub(crate) fn holds(&mut self, row: Row) -> bool {
        row.thread < self.table.threads && row.sync <= self.table.rows && self.held[self.place(row)]
    }

    fn has_room(&self, offers: &[Offer]) -> Result<(), Refused> {
        (offers.len() <= self.table.offers as usize).then_some(()).ok_or(RANGE)
    }

    fn is_there(&self, row: Row) -> Result<(), Refused> {
        self.table.has(row).then_some(()).ok_or(NO_ROW)
    }

    fn is_held(&mut self, row: Row) -> Result<(), Refused> {
        self.is_there(row)?;
        self.holds(row).then_some(()).ok_or(NOT_HELD)
    }

    fn is_fresh(&mut self, row: Row) -> Result<(), Refused> {
        self.is_held(row)?;
        (self.table.cell(row) == Cell::Fresh).then_some(()).ok_or(OPENED)
    }

    fn is_open(&mut self, row: Row) -> Result<(), Refused> {
        self.is_held(row)?;
        (self.table.cell(row) != Cell::Fresh).then_some(()).ok_or(FRESH)
    }

    /// Writes the offers of a held row that is not opened.
    pub(crate) fn draft(&mut self, row: Row, offers: &[Offer]) -> Result<(), Refused> {
        self.has_room(offers)?;
        self.is_fresh(row)?;
        for (number, offer) in (0..).zip(offers) {
            self.table.word(row, 2 + 2 * number).store(u64::from(offer.kind | offer.of << 3), SeqCst);
            self.table.word(row, 3 + 2 * number).store(offer.message.atoms[0].value.into(), SeqCst);
        }
        self.table.word(row, 1).store(offers.len() as u64, SeqCst);
        Ok(())
    }

    /// From here on the row's offers stand.
    pub(crate) fn open(&mut self, row: Row) -> Result<(), Refused> {
        self.is_fresh(row)?;
        self.table.word(row, 0).store(WAITING, SeqCst);
        Ok(())
    }

    /// Takes a committed row that was not taken: the pass holds the thread's next one. Whether it was so.
    pub(crate) fn take(&mut self, row: Row) -> Result<bool, Refused> {
        self.is_there(row)?;
        let Cell::Synched(joined) = self.table.cell(row) else {
            return Ok(false);
        };
        let (from, to) = (pack(SYNCHED, joined), pack(TAKEN, joined));
        let is_mine = self.table.word(row, 0).compare_exchange(from, to, SeqCst, SeqCst).is_ok();
        if is_mine {
            self.hold(Row { sync: row.sync + 1, ..row });
        }
        Ok(is_mine)
    }

    /// Takes the row before where this pass does not hold this one yet, drafts and opens it, and looks for a row that it
    /// can meet: first the newest row of that thread.
    pub(crate) fn begin(&mut self, row: Row, offers: &[Offer], first: Option<u32>) -> Result<Found, Refused> {
        self.has_room(offers)?;
        self.is_there(row)?;
        if !self.holds(row) && row.sync > 0 {
            self.take(Row { sync: row.sync - 1, ..row })?;
        }
        self.draft(row, offers)?;
        self.open(row)?;
        Ok(self.table.search(row, first))
    }

    /// Looks for a row that this held opened row can meet.
    pub(crate) fn search(&mut self, row: Row) -> Result<Found, Refused> {
        self.is_open(row)?;
        Ok(self.table.search(row, None))
    }

    /// Tries to commit a held opened row with another one, by one offer of each.
    #[cfg(all(test, not(schedules)))]
    pub(crate) fn attempt(&mut self, mine: Row, own: u32, other: Row, partner: u32) -> Result<Attempt, Refused> {
        self.is_there(mine)?;
        self.is_there(other)?;
        self.is_open(mine)?;
        Ok(self.table.attempt(mine, own, other, partner))
    }

    /// Commits the row alone by this offer, an always.
    pub(crate) fn grant(&mut self, row: Row, offer: u32) -> Result<Grant, Refused> {
        self.is_there(row)?;
        let table = &self.table;
        let is_always = table.offer(row, offer).is_some_and(|(kind, _)| kind == Offer::ALWAYS);
        if table.cell(row) == Cell::Fresh || !is_always {
            return Ok(Grant::NotEnabled);
        }
        let joined = Joined { own: offer, partner: None, stamp: 1 + table.last_stamp(row) };
        match table.word(row, 0).compare_exchange(WAITING, pack(SYNCHED, joined), SeqCst, SeqCst) {
            Ok(_) => Ok(Grant::Given),
            Err(_) => Ok(Grant::Late),
        }
    }

    /// Whether the row is committed.
    pub(crate) fn is_committed(&mut self, row: Row) -> Result<bool, Refused> {
        self.is_there(row)?;
        Ok(self.table.joined(row).is_some())
    }

    /// How the row was committed, and what its thread gets.
    pub(crate) fn answer(&mut self, row: Row) -> Result<Option<Answer>, Refused> {
        self.is_there(row)?;
        let Some(joined) = self.table.joined(row) else {
            return Ok(None);
        };
        let number = match (self.table.offer(row, joined.own), joined.partner) {
            (Some((Offer::RECV, _)), Some((partner, offer))) => self.table.number(partner, offer),
            (Some((Offer::ALWAYS, _)), _) => self.table.number(row, joined.own),
            _ => 0,
        };
        Ok(Some(Answer { own: joined.own, number }))
    }
}

fn meets(offer: (u32, u32), facing: (u32, u32)) -> bool {
    offer.1 == facing.1 && matches!((offer.0, facing.0), (Offer::SEND, Offer::RECV) | (Offer::RECV, Offer::SEND))
}

/// The lane of an offer, and the one that it looks into.
fn lanes((kind, channel): (u32, u32)) -> Option<(usize, usize)> {
    let lane = 2 * channel as usize;
    match kind {
        Offer::SEND => Some((lane, lane + 1)),
        Offer::RECV => Some((lane + 1, lane)),
        _ => None,
    }
}

const WAITING: u64 = 1;
const CLAIMED: u64 = 2;
const SYNCHED: u64 = 3;
const TAKEN: u64 = 4;

fn pack(state: u64, joined: Joined) -> u64 {
    let alone = state | u64::from(joined.own) << 3 | u64::from(joined.stamp) << 26;
    match joined.partner {
        None => alone,
        Some((row, offer)) => {
            alone | 1 << 6 | u64::from(offer) << 7 | u64::from(row.sync) << 10 | u64::from(row.thread) << 20
        }
    }
}

fn unpack(word: u64) -> Cell {
    let joined = || Joined {
        own: (word >> 3 & 7) as u32,
        partner: (word >> 6 & 1 == 1).then(|| {
            let row = Row { thread: (word >> 20 & 63) as u32, sync: (word >> 10 & 1023) as u32 };
            (row, (word >> 7 & 7) as u32)
        }),
        stamp: (word >> 26) as u32,
    };
    match word & 7 {
        0 => Cell::Fresh,
        WAITING => Cell::Waiting,
        CLAIMED => Cell::Claimed,
        SYNCHED => Cell::Synched(joined()),
        _ => Cell::Taken(joined()),
    }
}
