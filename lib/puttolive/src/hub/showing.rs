//! How a sync is shown in the table: a row of it is drafted, opened and searched, window after window, and whom it may meet
//! on the bench is brought in.

use super::lines::Stand;
use super::{HubCore, Visit, WINDOW, answer, grant, pause, slots};
use crate::record::{Answered, Pick, Place, Record, Tail, Want};
use crate::sync::atomic::Ordering::SeqCst;
use crate::sync::{self, lock};
use crate::table::{Found, OFFERS, Offer, Pass, Row};
use std::sync::Arc;

/// A sync that is to be shown.
#[derive(Clone, Copy)]
struct Guest<'g> {
    record: &'g Arc<Record>,
    ticket: u64,
    /// Who is not put out for it.
    stays: Option<&'g Arc<Record>>,
    /// Whether this thread runs the sync. Else it brings in another's.
    is_own: bool,
}

/// What came of showing a sync in the table.
enum Shown {
    /// It has its answer, which is here if its own thread has shown it.
    Committed(Option<Answered>),
    /// It waits, with so many others in a line.
    Left(usize),
    /// It is shown by another thread, or has its answer.
    Stale,
}

/// A row of a sync, with all that its search needs.
struct Seated {
    row: Row,
    offers: usize,
    /// Its last offer, where the row does not wait.
    always: Option<u32>,
    stand: Stand,
}

/// What came of asking for a row.
enum Seat {
    Taken(Seated),
    /// The sync is shown by another thread, or has its answer.
    Stale,
    /// All numbers that are lent are in use.
    NoNumber,
}

impl HubCore {
    /// Shows a sync of this thread in the table, all its sends and receives, so many at a time as a row has room for. Its
    /// answer, if it is there at once: where it does not wait it always is. Else how many others wait in line with it.
    pub(crate) fn enter(
        &self,
        record: &Arc<Record>,
        ticket: u64,
        wants: usize,
        waits: bool,
    ) -> Result<Answered, usize> {
        if waits && self.is_crowded() && self.waits_on_bench(record, ticket) {
            return Err(usize::MAX);
        }
        let mut crowd = 0;
        let mut visit = Visit::new(self);
        let first = if self.bench.is_empty() { None } else { self.first_of_all(record, ticket, &mut visit) };
        let guest = Guest { record, ticket, stays: first.as_ref(), is_own: true };
        if wants > WINDOW {
            visit.take_room();
        }
        for want in (0..wants).step_by(WINDOW) {
            let shown = match wants > WINDOW {
                true => self.bring(guest, want, &mut visit),
                false => self.show(guest, 0, &mut visit),
            };
            match shown {
                Shown::Committed(answered) => return answered.ok_or(crowd),
                Shown::Left(others) => {
                    crowd = crowd.max(others);
                    self.meet_bench(guest, want, &mut visit);
                }
                Shown::Stale => {}
            }
        }
        if waits { Err(crowd) } else { self.end_at_once(guest).ok_or(crowd) }
    }

    /// The answer of a sync that does not wait: its always, where nobody has met it.
    fn end_at_once(&self, guest: Guest<'_>) -> Option<Answered> {
        let mut pass = self.any_pass(slots::hint());
        let mut job = lock(&guest.record.job);
        let pick = match (job.place, job.tail) {
            (Place::Table { row, from }, _) => {
                grant(&mut pass, row, job.count(from));
                let pick = answer(&mut pass, row, from, &job);
                self.leave(&mut job, row, from);
                pick
            }
            (Place::Out, Tail::Always(base)) => {
                self.bench.remove(&mut job);
                Pick { base, number: 0 }
            }
            (Place::Done(pick), _) => pick,
            (Place::Out | Place::Idle, _) => return None,
        };
        Some(job.end(pick))
    }

    /// One row of the sync, with the wants of one window, is drafted, opened and searched. Where it is committed its
    /// answer is taken at once.
    fn show<'a>(&'a self, guest: Guest<'_>, from: usize, visit: &mut Visit<'a>) -> Shown {
        let mut offers = [Offer::default(); OFFERS];
        loop {
            let slot = self.claim(guest.stays, visit);
            let mut pass = self.pass_for(slot);
            if !self.is_seat(slot) {
                // the table is another one, which has no such slot
                self.release(slot);
                continue;
            }
            let seated = match self.seat(guest, from, slot, &mut offers) {
                Seat::Taken(seated) => seated,
                Seat::Stale => return Shown::Stale,
                Seat::NoNumber => {
                    drop(pass);
                    self.free_a_number(guest, visit);
                    continue;
                }
            };
            match self.search(&mut pass, &seated, &offers) {
                Found::Left => return Shown::Left(self.stand_behind(guest.record, &seated)),
                Found::Met(other) => {
                    if let Some(partner) = self.settle(&mut pass, other) {
                        visit.wake(partner);
                    }
                }
                Found::Already | Found::Again => {}
            }
            if let Some(shown) = self.outcome(&mut pass, guest, seated.row) {
                return shown;
            }
        }
    }

    /// Gives the sync the next row of the slot, if it stands in none: whoever commits that row knows from here on whose it
    /// is. Else the slot is free again.
    fn seat(&self, guest: Guest<'_>, from: usize, slot: usize, offers: &mut [Offer; OFFERS]) -> Seat {
        let mut job = lock(&guest.record.job);
        if job.ticket != guest.ticket || !matches!(job.place, Place::Out) {
            drop(job);
            self.release(slot);
            return Seat::Stale;
        }
        if !self.lend(&mut job, from) {
            drop(job);
            self.release(slot);
            return Seat::NoNumber;
        }
        let count = job.write_offers(from, offers);
        let next = &self.slots[slot].0.next;
        let row = Row { thread: slot as u32, sync: next.load(SeqCst).into() };
        next.store(row.sync as u16 + 1, SeqCst);
        *lock(&self.slots[slot].0.record) = Some(guest.record.clone());
        job.place = Place::Table { row, from };
        job.turns = 0;
        // what its row does not show stays on the bench
        if job.wants.len() <= WINDOW {
            self.bench.remove(&mut job);
        }
        let always = job.ends_at_once(from).then_some(count as u32 - 1);
        self.shown.add(job.window(from));
        let stand = self.stand_in_line(row, &mut job, from, always.is_none());
        Seat::Taken(Seated { row, offers: count, always, stand })
    }

    /// Puts a row that was left into the lines in which it does not stand yet. Tells how many stand in the longest of its lines.
    fn stand_behind(&self, record: &Record, seated: &Seated) -> usize {
        let Stand { wants, crowd, .. } = seated.stand;
        if wants + 1 == seated.offers || seated.always.is_some() {
            return crowd;
        }
        let mut job = lock(&record.job);
        match job.place {
            Place::Table { row, from } if row == seated.row => {
                crowd.max(self.stand_in_lines(row, &mut job, from, wants))
            }
            _ => crowd,
        }
    }

    /// Somebody has to go, so that a number is free which his row has been lent.
    fn free_a_number<'a>(&'a self, guest: Guest<'_>, visit: &mut Visit<'a>) {
        visit.take_room();
        match self.evict(guest.stays) {
            Some(slot) => self.release(slot),
            None => sync::pass_on(),
        }
    }

    /// The row is drafted, opened and searched, until it is left or committed. Where it does not wait, and nobody is on the
    /// bench, it is granted its last offer in the end.
    fn search(&self, pass: &mut Pass, seated: &Seated, offers: &[Offer; OFFERS]) -> Found {
        let mut found = pass.begin(seated.row, &offers[..seated.offers], seated.stand.first).expect("a held fresh row");
        loop {
            match (found, seated.always) {
                (Found::Again, _) => {
                    pause();
                    found = pass.search(seated.row).expect("a held opened row");
                }
                (Found::Left, Some(last)) if self.bench.is_empty() => {
                    // where it is late a partner has committed it
                    pass.grant(seated.row, last).expect("a row of the table");
                    return Found::Already;
                }
                _ => return found,
            }
        }
    }

    /// What came of a row that its search did not leave. None where it was put out before it had looked everywhere.
    fn outcome(&self, pass: &mut Pass, guest: Guest<'_>, row: Row) -> Option<Shown> {
        let mut job = lock(&guest.record.job);
        match job.place {
            _ if job.ticket != guest.ticket => Some(Shown::Stale),
            Place::Out => None,
            Place::Table { row: now, from } if now == row => {
                let pick = answer(pass, row, from, &job);
                self.leave(&mut job, row, from);
                job.place = Place::Done(pick);
                Some(Shown::Committed(guest.is_own.then(|| job.end(pick))))
            }
            // by its partner
            Place::Done(pick) if guest.is_own => Some(Shown::Committed(Some(job.end(pick)))),
            _ => Some(Shown::Stale),
        }
    }

    /// Takes the answer of a row that was just committed for whoever stands in it, where he has not done so himself
    /// (rule 3). He is to be woken.
    fn settle(&self, pass: &mut Pass, row: Row) -> Option<Arc<Record>> {
        let record = self.slots[row.thread as usize].0.guest()?;
        let mut job = lock(&record.job);
        let from = match job.place {
            Place::Table { row: now, from } if now == row => from,
            _ => return None,
        };
        let pick = answer(pass, row, from, &job);
        self.leave(&mut job, row, from);
        job.place = Place::Done(pick);
        drop(job);
        Some(record)
    }

    // ---- the bench

    /// Puts a sync that would wait onto the bench, with no row. Whether nobody meets it there or in the table: else it has
    /// to be shown.
    fn waits_on_bench(&self, record: &Arc<Record>, ticket: u64) -> bool {
        let mut job = lock(&record.job);
        if job.ticket != ticket || !matches!((job.place, job.tail), (Place::Out, Tail::Alarms)) {
            return false;
        }
        if job.wants.iter().any(|want| self.shown.may_meet(want)) {
            return false;
        }
        // rule 2: first it stands there, then it looks
        self.bench.put(&mut job, record);
        let is_met = |want: &Want| self.shown.may_meet(want) || self.bench.has_partner(record, want);
        !job.wants.iter().any(is_met)
    }

    /// Brings in from the bench whom the wants might meet of the window with which a sync was left in the table, and so
    /// on for those who are left in the table in turn.
    fn meet_bench<'a>(&'a self, guest: Guest<'_>, from: usize, visit: &mut Visit<'a>) {
        if self.bench.is_empty() || !self.may_meet_bench(guest.record, from) {
            return;
        }
        visit.take_room();
        let mut left = vec![(guest.record.clone(), guest.ticket, from)];
        while let Some((record, ticket, from)) = left.pop() {
            let last = self.bench.last();
            for want in from..from + WINDOW {
                let mut from_age = 0;
                while let Some(partner) = self.bench.partner(&record, ticket, want, from_age, last) {
                    from_age = partner.age + 1;
                    let guest =
                        Guest { record: &partner.record, ticket: partner.ticket, stays: Some(&record), is_own: false };
                    if let Shown::Left(_) = self.bring_in(guest, partner.want, visit) {
                        left.push((partner.record, partner.ticket, partner.want / WINDOW * WINDOW));
                    }
                }
            }
        }
    }

    /// Who waits longest for the first want of the sync that anybody waits for, in the table or on the bench: from the bench
    /// he is brought in.
    fn first_of_all<'a>(&'a self, record: &Arc<Record>, ticket: u64, visit: &mut Visit<'a>) -> Option<Arc<Record>> {
        let waiting = |(number, want)| match (self.bench.oldest(want), self.first_in_line(want)) {
            (None, None) => None,
            (on_bench, in_table) => Some((number, on_bench, in_table)),
        };
        let (want, on_bench, in_table) = lock(&record.job).wants.iter().enumerate().find_map(waiting)?;
        match (on_bench, in_table) {
            (Some(age), Some((older, slot))) if older <= age => self.slots[slot].0.guest(),
            (Some(_), _) => self.bring_oldest(record, ticket, want, visit),
            (None, Some((_, slot))) => self.slots[slot].0.guest(),
            (None, None) => None,
        }
    }

    /// Brings in the oldest on the bench whom the want meets: who then waits in the table.
    fn bring_oldest<'a>(
        &'a self,
        record: &Arc<Record>,
        ticket: u64,
        want: usize,
        visit: &mut Visit<'a>,
    ) -> Option<Arc<Record>> {
        visit.take_room();
        let last = self.bench.last();
        let partner = self.bench.partner(record, ticket, want, 0, last)?;
        let guest = Guest { record: &partner.record, ticket: partner.ticket, stays: Some(record), is_own: false };
        match self.bring_in(guest, partner.want, visit) {
            Shown::Committed(_) => return None,
            Shown::Left(_) => self.meet_bench(guest, partner.want / WINDOW * WINDOW, visit),
            Shown::Stale => {}
        }
        Some(partner.record)
    }

    /// Shows another one's sync. Where that has its answer by it, he is to be woken.
    fn bring_in<'a>(&'a self, guest: Guest<'_>, want: usize, visit: &mut Visit<'a>) -> Shown {
        let shown = self.bring(guest, want, visit);
        if let Shown::Committed(_) = shown {
            visit.wake(guest.record.clone());
        }
        shown
    }

    fn may_meet_bench(&self, record: &Record, from: usize) -> bool {
        let job = lock(&record.job);
        job.wants.iter().skip(from).take(WINDOW).any(|want| self.bench.may_meet(want))
    }

    // ---- windows

    /// Shows the window of a sync in which that want is.
    fn bring<'a>(&'a self, guest: Guest<'_>, want: usize, visit: &mut Visit<'a>) -> Shown {
        let from = want / WINDOW * WINDOW;
        loop {
            match self.window(guest) {
                None => return Shown::Stale,
                Some(None) => match self.show(guest, from, visit) {
                    // another thread shows another window, and may have done so before this one had looked everywhere
                    Shown::Stale => {}
                    shown => return shown,
                },
                Some(Some(shown)) if shown == from => return Shown::Stale,
                Some(Some(_)) => match self.put_out(guest.record, |job, _| job.ticket == guest.ticket) {
                    Some(slot) => self.release(slot),
                    // it is being answered, or another thread moves it
                    None => pause(),
                },
            }
        }
    }

    /// Which of its windows a sync without an answer shows, if any.
    fn window(&self, guest: Guest<'_>) -> Option<Option<usize>> {
        let job = lock(&guest.record.job);
        match job.place {
            _ if job.ticket != guest.ticket => None,
            Place::Table { from, .. } => Some(Some(from)),
            Place::Out => Some(None),
            Place::Idle | Place::Done(_) => None,
        }
    }
}
