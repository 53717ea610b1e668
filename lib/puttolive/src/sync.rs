//! The locks, the atomics, the parking and the time that the crate uses: those of `std`, and under `--cfg schedules` those
//! of the scheduler in `schedule.rs`. No other file names `std`'s own.

#[cfg(not(schedules))]
pub(crate) use self::of_std::*;
#[cfg(schedules)]
pub(crate) use crate::schedule::{
    JoinHandle, Mutex, MutexGuard, Thread, atomic, current, dice, hold_up, lock, now, park, park_until, pass_on, spawn,
    spin_hint, try_lock,
};

/// A value on a cache line of its own.
#[derive(Default)]
#[repr(align(128))]
pub(crate) struct Padded<T>(pub(crate) T);

#[cfg(not(schedules))]
mod of_std {
    use std::cell::Cell;
    pub(crate) use std::hint::spin_loop as spin_hint;
    pub(crate) use std::sync::{Mutex, MutexGuard, atomic};
    use std::sync::{PoisonError, TryLockError};
    pub(crate) use std::thread::{JoinHandle, Thread, current, park, spawn, yield_now as pass_on};
    use std::time::Instant;

    /// Takes the lock, after a panic under it too: no invariant of the crate is ever broken under a lock.
    pub(crate) fn lock<T: ?Sized>(mutex: &Mutex<T>) -> MutexGuard<'_, T> {
        mutex.lock().unwrap_or_else(PoisonError::into_inner)
    }

    /// Takes the lock if nobody has it.
    pub(crate) fn try_lock<T: ?Sized>(mutex: &Mutex<T>) -> Option<MutexGuard<'_, T>> {
        match mutex.try_lock() {
            Ok(guard) => Some(guard),
            Err(TryLockError::Poisoned(poisoned)) => Some(poisoned.into_inner()),
            Err(TryLockError::WouldBlock) => None,
        }
    }

    pub(crate) fn now() -> Instant {
        Instant::now()
    }

    /// Where drawn schedules hold a thread up.
    #[cfg(test)]
    pub(crate) fn hold_up() {}

    /// A number that looks random.
    pub(crate) fn dice() -> u32 {
        static SEEDS: atomic::AtomicU32 = atomic::AtomicU32::new(1);
        thread_local! {
            static STATE: Cell<u32> = Cell::new(SEEDS.fetch_add(0x9e37_79b9, atomic::Ordering::Relaxed) | 1);
        }
        let next = |state: &Cell<u32>| {
            let mut bits = state.get();
            bits ^= bits << 13;
            bits ^= bits >> 17;
            bits ^= bits << 5;
            state.set(bits);
            bits
        };
        STATE.try_with(next).unwrap_or(0)
    }

    /// Parks until the time has come, or until it is unparked. It may return before either.
    pub(crate) fn park_until(time: Instant) {
        std::thread::park_timeout(time.saturating_duration_since(now()));
    }
}
