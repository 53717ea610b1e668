//! The channels of puttolive in the shape of crossbeam-channel, for its tests. No channel here has a buffer, whatever
//! is asked for. `scope` and `thread_rng` stand for what the tests use of crossbeam-utils and rand.

pub use puttolive;
pub use puttolive::{RecvError, RecvTimeoutError, SendError, SendTimeoutError, TryRecvError, TrySendError};
use std::ops::{Deref, Range};
use std::sync::atomic::{AtomicU64, Ordering::Relaxed};
use std::time::{Duration, Instant};

pub struct Sender<T>(puttolive::Sender<T>);
pub struct Receiver<T>(puttolive::Receiver<T>);

pub fn bounded<T: Send>(_: usize) -> (Sender<T>, Receiver<T>) {
    let (sender, receiver) = puttolive::channel();
    (Sender(sender), Receiver(receiver))
}

pub fn unbounded<T: Send>() -> (Sender<T>, Receiver<T>) {
    bounded(0)
}

pub fn never<T: Send>() -> Receiver<T> {
    let (sender, receiver) = bounded(0);
    std::mem::forget(sender);
    receiver
}

pub fn after(_: Duration) -> Receiver<Instant> {
    unimplemented!("tests that use it are left out")
}

pub fn tick(_: Duration) -> Receiver<Instant> {
    unimplemented!("tests that use it are left out")
}

macro_rules! half {
    ($half:ident) => {
        impl<T> Clone for $half<T> {
            fn clone(&self) -> Self {
                $half(self.0.clone())
            }
        }

        impl<T> Deref for $half<T> {
            type Target = puttolive::$half<T>;
            fn deref(&self) -> &Self::Target {
                &self.0
            }
        }

        impl<T> $half<T> {
            pub fn len(&self) -> usize {
                0
            }
            pub fn is_empty(&self) -> bool {
                true
            }
            pub fn is_full(&self) -> bool {
                true
            }
            pub fn capacity(&self) -> Option<usize> {
                Some(0)
            }
        }
    };
}
half!(Sender);
half!(Receiver);

#[macro_export]
macro_rules! select {
    // the arms one after another, turned into those of puttolive's
    (@ [$($arms:tt)*]) => { $crate::puttolive::select!($($arms)*) };
    (@ [$($arms:tt)*] , $($rest:tt)*) => { $crate::select!(@ [$($arms)*] $($rest)*) };
    (@ [$($arms:tt)*] recv($half:expr $(,)?) -> $got:pat => $body:block $($rest:tt)*) => {
        $crate::select!(@ [$($arms)* $got = $half.recv_evt() => { $body },] $($rest)*)
    };
    (@ [$($arms:tt)*] recv($half:expr $(,)?) -> $got:pat => $body:expr $(, $($rest:tt)*)?) => {
        $crate::select!(@ [$($arms)* $got = $half.recv_evt() => { $body },] $($($rest)*)?)
    };
    (@ [$($arms:tt)*] send($half:expr, $value:expr $(,)?) -> $got:pat => $body:block $($rest:tt)*) => {
        $crate::select!(@ [$($arms)* $got = $half.send_evt($value) => { $body },] $($rest)*)
    };
    (@ [$($arms:tt)*] send($half:expr, $value:expr $(,)?) -> $got:pat => $body:expr $(, $($rest:tt)*)?) => {
        $crate::select!(@ [$($arms)* $got = $half.send_evt($value) => { $body },] $($($rest)*)?)
    };
    (@ [$($arms:tt)*] default $(())? => $body:expr $(,)?) => {
        $crate::select!(@ [$($arms)* else => { $body }])
    };
    (@ [$($arms:tt)*] default($time:expr $(,)?) => $body:expr $(,)?) => {
        $crate::select!(@ [$($arms)* _ = $crate::puttolive::timeout($time) => { $body }])
    };
    ($($arms:tt)*) => { $crate::select!(@ [] $($arms)*) };
}

// ---- in the place of crossbeam-utils

/// Threads of a scope, whose functions are given the scope.
pub struct Scope<'scope, 'env>(&'scope std::thread::Scope<'scope, 'env>);

impl<'scope, 'env> Scope<'scope, 'env> {
    pub fn spawn<T: Send + 'scope>(
        &self,
        body: impl FnOnce(&Scope<'scope, 'env>) -> T + Send + 'scope,
    ) -> std::thread::ScopedJoinHandle<'scope, T> {
        let scope = self.0;
        scope.spawn(move || body(&Scope(scope)))
    }
}

pub fn scope<'env, T>(body: impl for<'scope> FnOnce(&Scope<'scope, 'env>) -> T) -> std::thread::Result<T> {
    Ok(std::thread::scope(|scope| body(&Scope(scope))))
}

// ---- in the place of rand

pub struct ThreadRng(u64);

pub trait Rng {
    fn gen_range(&mut self, range: Range<usize>) -> usize;
}

pub fn thread_rng() -> ThreadRng {
    static SEED: AtomicU64 = AtomicU64::new(1);
    ThreadRng(SEED.fetch_add(0x9e37_79b9_7f4a_7c15, Relaxed) | 1)
}

impl Rng for ThreadRng {
    fn gen_range(&mut self, range: Range<usize>) -> usize {
        self.0 ^= self.0 << 13;
        self.0 ^= self.0 >> 7;
        self.0 ^= self.0 << 17;
        range.start + (self.0 >> 11) as usize % range.len()
    }
}
