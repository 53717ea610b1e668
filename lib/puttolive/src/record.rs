//! One sync at a time of a thread or a task: what it wants, where it stands, and how its thread or task is woken.

use crate::hub::{Port, WINDOW};
use crate::sync::atomic::{AtomicU32, AtomicU64, Ordering::SeqCst};
use crate::sync::{self, Mutex, Padded, Thread, lock};
use crate::table::{OFFERS, Offer, Row};
use std::cell::Cell;
use std::mem;
use std::panic::{AssertUnwindSafe, catch_unwind};
use std::sync::Arc;
use std::task::{Context, Waker};
use std::time::{Duration, Instant};

/// A send or a receive of a sync.
pub(crate) struct Want {
    /// The number of the base event in its sync.
    pub(crate) base: u32,
    pub(crate) is_send: bool,
    /// Where the value lies that is sent.
    pub(crate) value: u32,
    /// The channel, by its number in the hub.
    pub(crate) channel: u64,
    /// Its number in the table, if it has one now.
    pub(crate) number: Option<u8>,
    /// The channel, if that number is lent.
    pub(crate) borrower: Option<Arc<Port>>,
}

/// When the last offer of a row is granted.
#[derive(Clone, Copy)]
pub(crate) enum Tail {
    /// When an alarm is to be heard.
    Alarms,
    /// When the row finds no partner at once: it stands for this base event.
    Always(u32),
}

/// Which base event a sync has chosen, and the number that came with it.
#[doc(hidden)]
#[derive(Clone, Copy, Debug)]
pub struct Pick {
    pub(crate) base: u32,
    pub(crate) number: u32,
}

/// The answer of a sync that is over.
pub(crate) struct Answered {
    pub(crate) pick: Pick,
    /// Its list of wants, emptied, to be used again.
    pub(crate) wants: Vec<Want>,
}

/// Where a sync stands.
#[derive(Clone, Copy)]
pub(crate) enum Place {
    /// No sync runs.
    Idle,
    /// In no row.
    Out,
    /// In this row, which shows the wants from `from` on.
    Table { row: Row, from: usize },
    /// It has its answer, and no row any more.
    Done(Pick),
}

/// A sync, as all who move it see it.
pub(crate) struct Job {
    /// The number of the sync among those of its record.
    pub(crate) ticket: u64,
    /// 0 where it has none yet: see [`Job::age`].
    pub(crate) age: u64,
    pub(crate) wants: Vec<Want>,
    pub(crate) tail: Tail,
    pub(crate) place: Place,
    /// Its number on the bench, or 0.
    pub(crate) benched: u64,
    /// How many tables have ended while it stood in its slot.
    pub(crate) turns: u32,
}

/// The next age. Ages are of all hubs, since a record may be used in each.
static AGES: Padded<AtomicU64> = Padded(AtomicU64::new(1));

impl Job {
    /// Its age: whoever began to wait earlier has a lower one. It has one from the first time on that it is asked for.
    pub(crate) fn age(&mut self) -> u64 {
        if self.age == 0 {
            self.age = AGES.0.fetch_add(1, SeqCst);
        }
        self.age
    }

    /// How many wants a row shows from there on.
    pub(crate) fn count(&self, from: usize) -> usize {
        (self.wants.len() - from).min(WINDOW)
    }

    /// The sync is over: its answer, for its thread.
    pub(crate) fn end(&mut self, pick: Pick) -> Answered {
        self.place = Place::Idle;
        let mut wants = mem::take(&mut self.wants);
        wants.clear();
        Answered { pick, wants }
    }

    /// The wants that a row shows from there on.
    pub(crate) fn window(&self, from: usize) -> &[Want] {
        &self.wants[from..from + self.count(from)]
    }

    /// Writes the offers of the row that shows the wants from there on, and tells how many there are.
    pub(crate) fn write_offers(&self, from: usize, offers: &mut [Offer; OFFERS]) -> usize {
        let count = self.count(from);
        for (offer, want) in offers.iter_mut().zip(self.window(from)) {
            let channel = want.number.expect("a want that is shown has a number").into();
            *offer = if want.is_send { Offer::send(channel, want.value) } else { Offer::recv(channel) };
        }
        offers[count] = Offer::always();
        count + 1
    }

    /// Whether the row that shows the wants from there on does not wait.
    pub(crate) fn ends_at_once(&self, from: usize) -> bool {
        matches!(self.tail, Tail::Always(_)) && from + WINDOW >= self.wants.len()
    }

    /// The base event of a row's offer.
    pub(crate) fn pick(&self, from: usize, own: u32, number: u32) -> Pick {
        let own = own as usize;
        match self.tail {
            _ if own < self.count(from) => Pick { base: self.wants[from + own].base, number },
            Tail::Always(base) => Pick { base, number },
            Tail::Alarms => unreachable!("who grants the last offer of a row that waits says what for"),
        }
    }
}

/// Who sleeps while the sync waits.
enum Sleeper {
    Thread(Thread),
    Task(Mutex<Option<Waker>>),
}

/// What a thread or a task syncs by.
pub(crate) struct Record {
    word: AtomicU32,
    sleeper: Sleeper,
    pub(crate) job: Mutex<Job>,
}

thread_local! {
    /// The record of a task's sync that is over.
    static KEPT: Cell<Option<Arc<Record>>> = const { Cell::new(None) };
}

/// The first looks of a thread that waits let nobody else run.
pub(crate) const SHORT_LOOKS: u32 = 6;

/// Who lets others run for so long shares the processor with other work: to sleep is better then.
const LONG: Duration = Duration::from_micros(500);

/// For how many waits at the least, and at the most, a thread lets nobody else run that has done so in vain.
const FEW: u32 = 2;
const MANY: u32 = 1024;

/// How a thread looks before it sleeps, after what came of it.
#[derive(Clone, Copy)]
struct Patience {
    /// For how many further waits it lets nobody else run.
    left: u32,
    /// How many they were the last time.
    last: u32,
}

thread_local! {
    static PATIENCE: Cell<Patience> = const { Cell::new(Patience { left: 0, last: 0 }) };
}

impl Patience {
    fn get() -> Patience {
        PATIENCE.try_with(Cell::get).unwrap_or(Patience { left: 0, last: 0 })
    }

    fn set(self) {
        let _ = PATIENCE.try_with(|patience| patience.set(self));
    }

    /// After a wait in which the thread let others run, and was woken meanwhile, or not.
    fn after(self, is_woken: bool) -> Patience {
        if is_woken {
            return Patience { left: 0, last: self.last / 2 };
        }
        let last = (2 * self.last).clamp(FEW, MANY);
        Patience { left: last, last }
    }
}

impl Record {
    const WAIT: u32 = 0;
    const PARKED: u32 = 1;
    const WOKEN: u32 = 2;

    pub(crate) fn of_this_thread() -> Arc<Record> {
        Record::new(Sleeper::Thread(sync::current()))
    }

    /// One that this thread has kept, or a new one.
    pub(crate) fn of_task() -> Arc<Record> {
        let kept = KEPT.try_with(Cell::take).ok().flatten();
        kept.unwrap_or_else(|| Record::new(Sleeper::Task(Mutex::new(None))))
    }

    /// A task's sync is over: its record is kept for the next one, if nobody else has it.
    pub(crate) fn keep(mut record: Arc<Record>) {
        if let Sleeper::Task(waker) = &record.sleeper {
            // code of the user drops a waker: here, since whoever else has the record may drop it under a lock
            let waker = lock(waker).take();
            drop(waker);
        }
        if Arc::get_mut(&mut record).is_some() {
            let _ = KEPT.try_with(|kept| kept.set(Some(record)));
        }
    }

    fn new(sleeper: Sleeper) -> Arc<Record> {
        let job =
            Job { ticket: 0, age: 0, wants: Vec::new(), tail: Tail::Alarms, place: Place::Idle, benched: 0, turns: 0 };
        Arc::new(Record { word: AtomicU32::new(Record::WAIT), sleeper, job: Mutex::new(job) })
    }

    /// The next sync begins, and its wants go into the job: its ticket.
    pub(crate) fn begin(&self, wants: Vec<Want>, always: Option<u32>) -> u64 {
        let mut job = lock(&self.job);
        job.wants = wants;
        job.ticket += 1;
        job.age = 0;
        job.tail = always.map_or(Tail::Alarms, Tail::Always);
        job.place = Place::Out;
        // no wake counts that came before
        self.word.store(Record::WAIT, SeqCst);
        job.ticket
    }

    pub(crate) fn is_of_thread(&self) -> bool {
        matches!(self.sleeper, Sleeper::Thread(_))
    }

    /// Tells the thread or the task to look for its answer. It may be told so for nothing. A task's waker is code of a
    /// user: no lock is in hand here, and where it panics the sync of this thread goes on.
    pub(crate) fn wake(&self) {
        if self.word.swap(Record::WOKEN, SeqCst) == Record::PARKED {
            match &self.sleeper {
                Sleeper::Thread(thread) => thread.unpark(),
                Sleeper::Task(waker) => {
                    let waker = lock(waker).take();
                    if let Some(waker) = waker {
                        let _ = catch_unwind(AssertUnwindSafe(|| waker.wake()));
                    }
                }
            }
        }
    }

    /// Asks for the answer of a task's sync, and where there is none has the task woken later. Whoever answers wakes behind
    /// it: so there is none where nobody has done so.
    pub(crate) fn poll(&self, context: &Context<'_>) -> Option<Answered> {
        let Sleeper::Task(waker) = &self.sleeper else { unreachable!("a task's record") };
        loop {
            if self.word.swap(Record::WAIT, SeqCst) == Record::WOKEN
                && let Some(answered) = self.settled()
            {
                return Some(answered);
            }
            // code of the user clones and drops wakers: under no lock
            let fresh = context.waker().clone();
            let old = lock(waker).replace(fresh);
            drop(old);
            if self.word.compare_exchange(Record::WAIT, Record::PARKED, SeqCst, SeqCst).is_ok() {
                return None;
            }
        }
    }

    /// Waits until the thread is told to look, or the time has come. From its return on the next `wake` counts anew.
    pub(crate) fn sleep(&self, spin: u32, until: Option<Instant>) {
        self.look_often(spin);
        if self.word.compare_exchange(Record::WAIT, Record::PARKED, SeqCst, SeqCst).is_ok() {
            while self.word.load(SeqCst) == Record::PARKED {
                match until {
                    None => sync::park(),
                    Some(until) if sync::now() >= until => break,
                    Some(until) => sync::park_until(until),
                }
            }
        }
        self.word.store(Record::WAIT, SeqCst);
    }

    fn is_woken(&self) -> bool {
        self.word.load(SeqCst) == Record::WOKEN
    }

    /// A few looks that grow longer, then such that let others run, where that was of use before.
    fn look_often(&self, looks: u32) {
        for look in 0..looks.min(SHORT_LOOKS) {
            if self.is_woken() {
                return;
            }
            (0..1 << look).for_each(|_| sync::spin_hint());
        }
        if looks <= SHORT_LOOKS || self.is_woken() {
            return;
        }
        let patience = Patience::get();
        if patience.left > 0 {
            return Patience { left: patience.left - 1, ..patience }.set();
        }
        let is_woken = (SHORT_LOOKS..looks).find_map(|_| self.lets_others_run()).unwrap_or(false);
        patience.after(is_woken).set();
    }

    /// Lets others run once: whether that was of use, if it is known by now.
    fn lets_others_run(&self) -> Option<bool> {
        let before = sync::now();
        sync::pass_on();
        let is_long = sync::now().saturating_duration_since(before) >= LONG;
        if is_long { Some(false) } else { self.is_woken().then_some(true) }
    }

    /// Takes the sync's answer, if it has one.
    pub(crate) fn settled(&self) -> Option<Answered> {
        let mut job = lock(&self.job);
        match job.place {
            Place::Done(pick) => Some(job.end(pick)),
            _ => None,
        }
    }

    /// Answers a sync that stands in no hub. False where it has its answer already, or another sync runs.
    pub(crate) fn settle(&self, ticket: u64, base: u32) -> bool {
        let mut job = lock(&self.job);
        if job.ticket != ticket || !matches!(job.place, Place::Out) {
            return false;
        }
        job.place = Place::Done(Pick { base, number: 0 });
        drop(job);
        self.wake();
        true
    }
}
