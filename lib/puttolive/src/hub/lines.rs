//! Lines: who stands in the table, by channel and side, oldest first. They are hints, by which who waits longest is met
//! first: who stands there may be gone, and who waits may stand in none.

use super::HubCore;
use crate::record::{Job, Want};
use crate::sync::atomic::Ordering::SeqCst;
use crate::sync::{Mutex, MutexGuard, lock};
use crate::table::Row;
use std::collections::VecDeque;

/// The numbers that a channel may have in the table.
pub(super) const NUMBERS: usize = 255;

pub(super) struct Lines {
    lines: Vec<Mutex<Line>>,
}

/// Who stands in the table for one channel.
#[derive(Default)]
struct Line {
    receivers: VecDeque<Entry>,
    senders: VecDeque<Entry>,
}

/// What came of standing in line.
pub(super) struct Stand {
    /// Which thread of the table waits longest for the first want that anybody waits for.
    pub(super) first: Option<u32>,
    /// How many wants stand in line.
    pub(super) wants: usize,
    /// How many stand in the longest of these lines.
    pub(super) crowd: usize,
}

#[derive(Clone, Copy)]
struct Entry {
    row: Row,
    age: u64,
    season: u64,
}

impl Line {
    fn side(&mut self, is_send: bool) -> &mut VecDeque<Entry> {
        if is_send { &mut self.senders } else { &mut self.receivers }
    }
}

impl Lines {
    pub(super) fn new() -> Lines {
        Lines { lines: (0..NUMBERS).map(|_| Mutex::default()).collect() }
    }

    fn line(&self, want: &Want) -> Option<MutexGuard<'_, Line>> {
        want.number.map(|number| lock(&self.lines[usize::from(number)]))
    }
}

impl HubCore {
    /// Whether the row of an entry is no longer the one in its slot.
    fn is_stale(&self, entry: &Entry, season: u64) -> bool {
        let slot = &self.slots[entry.row.thread as usize].0;
        let is_newest = || u32::from(slot.next.load(SeqCst)) == entry.row.sync + 1;
        entry.season != season || !slot.is_busy.load(SeqCst) || !is_newest()
    }

    fn drop_stale(&self, line: &mut VecDeque<Entry>, season: u64) {
        while line.front().is_some_and(|entry| self.is_stale(entry, season)) {
            line.pop_front();
        }
    }

    /// The age of the first in the table whom the want meets, and its slot.
    pub(super) fn first_in_line(&self, want: &Want) -> Option<(u64, usize)> {
        let season = self.season.load(SeqCst);
        let mut line = self.lines.line(want)?;
        let facing = line.side(!want.is_send);
        self.drop_stale(facing, season);
        facing.front().map(|entry| (entry.age, entry.row.thread as usize))
    }

    /// Puts a row that waits into the lines of the wants that it shows from there on, up to the first want that anybody
    /// waits for: whom it may meet at once.
    pub(super) fn stand_in_line(&self, row: Row, job: &mut Job, from: usize, waits: bool) -> Stand {
        let season = self.season.load(SeqCst);
        let count = job.count(from);
        let mut crowd = 0;
        for at in 0..count {
            let want = &job.wants[from + at];
            let is_send = want.is_send;
            let Some(mut line) = self.lines.line(want) else {
                continue;
            };
            let facing = line.side(!is_send);
            self.drop_stale(facing, season);
            if let Some(first) = facing.front() {
                return Stand { first: Some(first.row.thread), wants: at, crowd };
            }
            if waits {
                crowd = crowd.max(self.put_in_line(line.side(is_send), Entry { row, age: job.age(), season }));
            }
        }
        Stand { first: None, wants: count, crowd }
    }

    /// Puts a row that waits into the lines of the wants that it shows from there on, but for so many. Tells how many stand
    /// in the longest of these lines.
    pub(super) fn stand_in_lines(&self, row: Row, job: &mut Job, from: usize, but: usize) -> usize {
        let entry = Entry { row, age: job.age(), season: self.season.load(SeqCst) };
        let mut crowd = 0;
        for want in &job.window(from)[but..] {
            if let Some(mut line) = self.lines.line(want) {
                crowd = crowd.max(self.put_in_line(line.side(want.is_send), entry));
            }
        }
        crowd
    }

    /// Puts an entry into a line, behind all who are older: how many stand there now, some of whom may be gone.
    fn put_in_line(&self, line: &mut VecDeque<Entry>, entry: Entry) -> usize {
        self.drop_stale(line, entry.season);
        if line.back().is_none_or(|last| last.age <= entry.age) {
            line.push_back(entry);
        } else {
            // who was put out and brought in is older than others that stand there
            let behind = line.iter().rposition(|other| other.age <= entry.age).map_or(0, |at| at + 1);
            line.insert(behind, entry);
        }
        line.len()
    }
}
