//! Deadlines of tasks. One thread looks after all of them, and sleeps until the first; it begins with the first deadline of
//! a task. Threads look after their own.

use crate::hub::HubRef;
use crate::latch;
use crate::record::Record;
#[cfg(schedules)]
pub(crate) use by_a_thread_each::Timer;
#[cfg(not(schedules))]
pub(crate) use by_one_thread::Timer;
use std::sync::Arc;

/// A sync of a task, which is answered by a base event at its deadline.
pub(crate) struct Due {
    pub(crate) record: Arc<Record>,
    pub(crate) ticket: u64,
    pub(crate) base: u32,
    pub(crate) hub: Option<HubRef>,
}

impl Due {
    fn ring(&self) {
        latch::alarm(&self.record, self.ticket, self.base, self.hub.as_ref());
    }
}

#[cfg(not(schedules))]
mod by_one_thread {
    use super::Due;
    use std::collections::BTreeMap;
    use std::sync::{Condvar, LazyLock, Mutex, MutexGuard, PoisonError};
    use std::thread;
    use std::time::Instant;

    /// A deadline that is looked after until this is dropped.
    pub(crate) struct Timer {
        key: Key,
    }

    /// A time, and which of its deadlines.
    type Key = (Instant, u64);

    #[derive(Default)]
    struct Clock {
        dues: Mutex<Dues>,
        is_sooner: Condvar,
    }

    #[derive(Default)]
    struct Dues {
        last: u64,
        by_time: BTreeMap<Key, Due>,
    }

    static CLOCK: LazyLock<&'static Clock> = LazyLock::new(|| {
        let clock: &'static Clock = Box::leak(Box::default());
        thread::Builder::new().name("puttolive-timer".into()).spawn(|| clock.run()).expect("a thread for deadlines");
        clock
    });

    impl Timer {
        pub(crate) fn set(time: Instant, due: Due) -> Timer {
            let mut dues = CLOCK.lock();
            dues.last += 1;
            let key = (time, dues.last);
            dues.by_time.insert(key, due);
            if dues.by_time.first_key_value().is_some_and(|(first, _)| *first == key) {
                CLOCK.is_sooner.notify_one();
            }
            Timer { key }
        }
    }

    impl Drop for Timer {
        fn drop(&mut self) {
            let due = CLOCK.lock().by_time.remove(&self.key);
            drop(due);
        }
    }

    impl Clock {
        fn lock(&self) -> MutexGuard<'_, Dues> {
            self.dues.lock().unwrap_or_else(PoisonError::into_inner)
        }

        fn run(&self) {
            let mut dues = self.lock();
            loop {
                let now = Instant::now();
                dues = match dues.by_time.first_entry() {
                    Some(first) if first.key().0 <= now => {
                        let due = first.remove();
                        drop(dues);
                        due.ring();
                        drop(due);
                        self.lock()
                    }
                    Some(first) => {
                        let left = first.key().0 - now;
                        self.is_sooner.wait_timeout(dues, left).unwrap_or_else(PoisonError::into_inner).0
                    }
                    None => self.is_sooner.wait(dues).unwrap_or_else(PoisonError::into_inner),
                };
            }
        }
    }
}

/// Under drawn schedules a run has no thread that goes on for ever: each deadline has a thread of its own.
#[cfg(schedules)]
mod by_a_thread_each {
    use super::Due;
    use crate::sync::{now, park_until, spawn};
    use std::time::Instant;

    pub(crate) struct Timer;

    impl Timer {
        pub(crate) fn set(time: Instant, due: Due) -> Timer {
            spawn(move || {
                while now() < time {
                    park_until(time);
                }
                due.ring();
            });
            Timer
        }
    }
}
