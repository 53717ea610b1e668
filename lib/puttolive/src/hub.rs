//! The hub: which sync stands in which row. All that this crate promises beside the table's own promises rests on this
//! module.
//!
//! A **sync** is a chain of rows. It stands in at most one row at a time (`Place::Table`) or in none (`Place::Out`). A
//! **slot** is a thread of the table, which a sync borrows while it stands there. So any number of threads shares 64.
//!
//! **Rules.**
//!
//! 1. The last offer of each row is an `always` that only the hub grants. By it a sync leaves its row without an answer:
//!    a latch has fired, its time is up, or another one needs its slot. A cell is committed once. So whoever grants that
//!    offer has won against every partner, and at most one row of a sync is committed with anything else: its answer.
//! 2. On the bench first, then out of the table. A sync that is put out stands on the bench before its row is granted. So at
//!    no moment is it in neither place. Whoever was left by a search looks at the bench behind it, and brings in whom he may
//!    meet. The one who is brought in searches in turn. Where few slots are left a sync may go to the bench with no row at
//!    all: it stands there, and behind that sees nobody in the table (`Shown`, which a row's wants enter before it is
//!    opened) and nobody on the bench whom it meets. Whoever comes later looks at the bench behind his search.
//! 3. Whoever commits settles. The pass by which a row was committed takes the partner's answer before it is given back.
//!    So while nobody has a pass in hand no row is committed and untold, and a table may end.
//! 4. One thread at a time makes room: it puts others out and brings them in until its own sync has been shown. Else two
//!    of them put each other's out by turns.
//!
//! **Locks**, in the order in which they are taken. Nobody takes one of a line above while he has one of a line below, but
//! for passes that are tried and not waited for. No code of a user runs under any of them: tasks' wakers are called behind all.
//!
//! 1. the room (rule 4);
//! 2. the turning: one thread at a time ends a table;
//! 3. passes: one by whoever calls the table, all by whoever ends it;
//! 4. one sync's job;
//! 5. what is held for a few steps: who stands in a slot, a line, the bench, channel numbers, a latch, a channel's values.
//!
//! Nobody waits with a lock in his hand, but for a row that another thread is about to open, or to claim no more.

mod bench;
mod lines;
mod ports;
mod seasons;
mod showing;
mod shown;
mod slots;

pub(crate) use ports::Port;

use crate::channel::Channel;
use crate::halves::{self, Receiver, Sender};
use crate::record::{Job, Pick, Place, Record};
use crate::sync::atomic::{AtomicU64, AtomicUsize, Ordering::SeqCst};
use crate::sync::{self, Mutex, MutexGuard, Padded, lock};
use crate::table::{Grant, Pass, Row};
use bench::Bench;
use lines::Lines;
use ports::Numbers;
use shown::Shown;
use slots::{Shape, SharedShape, Slot};
use std::ops::Deref;
use std::ptr;
use std::sync::{Arc, LazyLock};
use std::time::Duration;

/// Offers of a row that are for sends and receives. Drawn schedules have few, so that few steps reach what is rare.
#[cfg(not(schedules))]
pub(crate) const WINDOW: usize = 7;
#[cfg(schedules)]
pub(crate) const WINDOW: usize = 2;

/// The measures of a [`Hub`](crate::Hub). The default ones serve every program; others make rare ways frequent in tests.
///
/// ```
/// use puttolive::{Config, Hub};
/// let hub = Hub::with(Config { slots: 8, ..Config::default() });
/// let channel = hub.channel::<u32>();
/// assert_eq!(channel.try_recv(), None);
/// ```
#[derive(Clone, Copy, Debug, PartialEq, Eq)]
pub struct Config {
    /// How many syncs may stand in the table at once, 2 to 64. Further ones wait beside it, and are brought in.
    pub slots: u8,
    /// Rows of each slot, 1 to 1,024, where all slots are in use. When they are spent the table is ended and a new one
    /// begins. Where fewer slots are in use each has more rows.
    pub rows: u16,
    /// How many threads may call the table at once, 1 to 16.
    pub passes: u8,
    /// How often a waiting thread looks before it parks. From the seventh look on it lets others run between two, while
    /// that is of use. Where more than eight wait in line it parks there.
    pub spin: u32,
}

impl Default for Config {
    fn default() -> Config {
        Config { slots: 64, rows: 16, passes: 16, spin: 60 }
    }
}

/// What a hub has done so far: see [`Hub::stats`](crate::Hub::stats).
#[derive(Clone, Copy, Debug, Default, PartialEq, Eq)]
pub struct Stats {
    /// Tables that were ended.
    pub turns: u64,
    /// How long that took in all. Nobody calls the table meanwhile.
    pub turning: Duration,
    /// Rows that were used.
    pub rows: u64,
    /// Syncs that were put out of the table to make room.
    pub evictions: u64,
    /// Rows that were committed in tables that were ended, where the hub audits them.
    pub audited: u64,
}

pub(crate) struct HubCore {
    pub(crate) config: Config,
    is_audited: bool,
    passes: Vec<Padded<Mutex<Pass>>>,
    slots: Vec<Padded<Slot>>,
    room: Mutex<()>,
    /// How many tables in a row were never full.
    turning: Mutex<u32>,
    /// Tables that were ended.
    season: AtomicU64,
    shape: SharedShape,
    /// How many slots are in use.
    busy: Padded<AtomicUsize>,
    /// Which slot is asked next to be given up.
    hand: AtomicUsize,
    bench: Bench,
    lines: Lines,
    shown: Shown,
    numbers: Numbers,
    rows: AtomicU64,
    turning_nanoseconds: AtomicU64,
    evictions: AtomicU64,
    audited: AtomicU64,
}

/// A hub, which those who use it keep.
#[derive(Clone)]
pub(crate) enum HubRef {
    /// That of the program: it stays, and nobody counts.
    Program(&'static HubCore),
    Own(Arc<HubCore>),
}

impl HubRef {
    /// Whether both are one hub.
    pub(crate) fn is(&self, other: &HubRef) -> bool {
        ptr::eq::<HubCore>(&**self, &**other)
    }
}

impl Deref for HubRef {
    type Target = HubCore;

    fn deref(&self) -> &HubCore {
        match self {
            HubRef::Program(core) => core,
            HubRef::Own(core) => core,
        }
    }
}

/// What a thread has taken and owes while it shows a sync. At its end the room is free again, and then those tasks are woken
/// that have an answer, with no lock in hand.
struct Visit<'a> {
    hub: &'a HubCore,
    /// The right to put syncs out of the table, taken when it is first needed.
    room: Option<MutexGuard<'a, ()>>,
    first_woken: Option<Arc<Record>>,
    others_woken: Vec<Arc<Record>>,
}

impl<'a> Visit<'a> {
    fn new(hub: &'a HubCore) -> Visit<'a> {
        Visit { hub, room: None, first_woken: None, others_woken: Vec::new() }
    }

    fn take_room(&mut self) {
        self.room.get_or_insert_with(|| lock(&self.hub.room));
    }

    /// Wakes a thread at once, and a task at the end: its waker is code of a user.
    fn wake(&mut self, record: Arc<Record>) {
        match self.first_woken {
            _ if record.is_of_thread() => record.wake(),
            None => self.first_woken = Some(record),
            Some(_) => self.others_woken.push(record),
        }
    }
}

impl Drop for Visit<'_> {
    fn drop(&mut self) {
        self.room = None;
        if let Some(record) = self.first_woken.take() {
            record.wake();
            self.others_woken.drain(..).for_each(|record| record.wake());
        }
    }
}

impl HubCore {
    /// # Panics
    /// Where a measure is out of its range.
    fn new(config: Config, is_audited: bool) -> HubCore {
        assert!((2..=64).contains(&config.slots), "a hub has 2 to 64 slots");
        assert!((1..=1024).contains(&config.rows), "a hub has 1 to 1024 rows");
        assert!((1..=16).contains(&config.passes), "a hub has 1 to 16 passes");
        let shape = Shape::first(&config);
        let passes = HubCore::table(&config, shape);
        HubCore {
            config,
            is_audited,
            passes: passes.into_iter().map(|pass| Padded(Mutex::new(pass))).collect(),
            slots: (0..config.slots).map(|_| Padded(Slot::default())).collect(),
            room: Mutex::new(()),
            turning: Mutex::new(0),
            season: AtomicU64::new(0),
            shape: SharedShape::new(shape),
            busy: Padded(AtomicUsize::new(0)),
            hand: AtomicUsize::new(0),
            bench: Bench::new(),
            lines: Lines::new(),
            shown: Shown::new(),
            numbers: Numbers::new(),
            rows: AtomicU64::new(0),
            turning_nanoseconds: AtomicU64::new(0),
            evictions: AtomicU64::new(0),
            audited: AtomicU64::new(0),
        }
    }

    pub(crate) fn stats(&self) -> Stats {
        let in_table = self.slots.iter().map(|slot| u64::from(slot.0.next.load(SeqCst)));
        Stats {
            turns: self.season.load(SeqCst),
            turning: Duration::from_nanos(self.turning_nanoseconds.load(SeqCst)),
            rows: self.rows.load(SeqCst) + in_table.sum::<u64>(),
            evictions: self.evictions.load(SeqCst),
            audited: self.audited.load(SeqCst),
        }
    }

    /// Answers the sync by a base event that is in no table (a latch, a deadline). False where it has its answer
    /// already, or another sync runs.
    pub(crate) fn alarm(&self, record: &Arc<Record>, ticket: u64, base: u32) -> bool {
        let mut pass = self.any_pass(slots::hint());
        let mut job = lock(&record.job);
        match job.place {
            _ if job.ticket != ticket => return false,
            Place::Idle | Place::Done(_) => return false,
            Place::Out => self.bench.remove(&mut job),
            Place::Table { row, from } => {
                if !grant(&mut pass, row, job.count(from)) {
                    return false;
                }
                self.leave(&mut job, row, from);
            }
        }
        job.place = Place::Done(Pick { base, number: 0 });
        drop((job, pass));
        record.wake();
        true
    }

    /// The sync leaves its row, which shows the wants from there on, and waits nowhere any more.
    fn leave(&self, job: &mut Job, row: Row, from: usize) {
        self.shown.remove(job.window(from));
        ports::give_back(job);
        self.bench.remove(job);
        self.release(row.thread as usize);
    }

    /// Puts a sync out of its row, onto the bench, if it stands in such a row and has no answer. Its slot is handed over.
    fn put_out(&self, record: &Arc<Record>, is_meant: impl Fn(&Job, Row) -> bool) -> Option<usize> {
        let mut pass = self.any_pass(slots::hint());
        let mut job = lock(&record.job);
        let Place::Table { row, from } = job.place else {
            return None;
        };
        if !is_meant(&job, row) {
            return None;
        }
        // rule 2: on the bench first
        self.bench.put(&mut job, record);
        if !grant(&mut pass, row, job.count(from)) {
            return None;
        }
        self.evictions.fetch_add(1, SeqCst);
        self.shown.remove(job.window(from));
        ports::give_back(&mut job);
        job.place = Place::Out;
        self.slots[row.thread as usize].0.clear();
        Some(row.thread as usize)
    }
}

/// What a committed row says of its sync.
fn answer(pass: &mut Pass, row: Row, from: usize, job: &Job) -> Pick {
    let answer = pass.answer(row).expect("a row of the table").expect("a committed row");
    job.pick(from, answer.own, answer.number)
}

/// Commits the row alone by this offer, an always. False where it is committed already.
fn grant(pass: &mut Pass, row: Row, offer: usize) -> bool {
    loop {
        match pass.grant(row, offer as u32).expect("a row of the table") {
            Grant::Given => return true,
            Grant::Late if pass.is_committed(row).expect("a row of the table") => return false,
            // another thread claims it for a moment, or is about to open it
            Grant::Late | Grant::NotEnabled => pause(),
        }
    }
}

/// A step of waiting for what another thread does at once.
fn pause() {
    if cfg!(not(schedules)) {
        (0..20).for_each(|_| sync::spin_hint());
    }
    sync::pass_on();
}

/// Where channels meet: a table of cells, and who stands in it. Channels of one hub may stand in one choice.
/// [`Channel::new`](crate::Channel::new) and [`channel`](crate::channel()) use the hub of the program, and no program needs
/// another one.
///
/// ```
/// use puttolive::*;
/// let hub = Hub::with(Config::default());
/// let (sender, receiver) = hub.halves();
/// let thread = spawn(move || sender.send(1));
/// assert_eq!(receiver.recv(), Ok(1));
/// thread.join().unwrap().unwrap();
/// assert_eq!(hub.stats().turns, 0);
/// ```
#[derive(Clone)]
pub struct Hub {
    core: HubRef,
}

impl std::fmt::Debug for Hub {
    fn fmt(&self, formatter: &mut std::fmt::Formatter<'_>) -> std::fmt::Result {
        formatter.debug_struct("Hub").field("config", &self.core.config).field("stats", &self.stats()).finish()
    }
}

impl Hub {
    /// The hub of the program.
    pub fn global() -> &'static Hub {
        static CORE: LazyLock<HubCore> = LazyLock::new(|| HubCore::new(Config::default(), false));
        static PROGRAM: LazyLock<Hub> = LazyLock::new(|| Hub { core: HubRef::Program(&CORE) });
        &PROGRAM
    }

    /// A hub with these measures.
    ///
    /// # Panics
    /// Where one is out of its range.
    pub fn with(config: Config) -> Hub {
        Hub { core: HubRef::Own(Arc::new(HubCore::new(config, false))) }
    }

    /// The same, which audits the ledger of each table that it ends, and panics where one is not lawful. For tests.
    #[doc(hidden)]
    pub fn audited(config: Config) -> Hub {
        Hub { core: HubRef::Own(Arc::new(HubCore::new(config, true))) }
    }

    /// A channel of this hub.
    pub fn channel<T: Send>(&self) -> Channel<T> {
        Channel::at(self.core.port())
    }

    /// A channel of this hub, of two halves.
    pub fn halves<T: Send>(&self) -> (Sender<T>, Receiver<T>) {
        halves::of(self.channel())
    }

    /// What the hub has done so far.
    pub fn stats(&self) -> Stats {
        self.core.stats()
    }
}
