//! What the tests share: a watch over what may hang, dice, values that are counted, and a small executor.
#![allow(dead_code)]

use std::collections::VecDeque;
use std::io::Write;
use std::pin::Pin;
use std::sync::atomic::{AtomicBool, AtomicI64, AtomicU64, AtomicUsize, Ordering::SeqCst};
use std::sync::mpsc::{self, RecvTimeoutError};
use std::sync::{Arc, Condvar, Mutex};
use std::task::{Context, Wake, Waker};
use std::thread;
use std::time::Duration;

/// A number from the environment, or this one.
pub fn asked(name: &str, otherwise: u64) -> u64 {
    std::env::var(name).map_or(otherwise, |text| text.parse().expect("a number"))
}

/// Runs this, and where it takes longer than `PATIENCE` (60 seconds) tells what is known and ends the program.
pub fn within<T>(tell: impl Fn() -> String + Send + 'static, run: impl FnOnce() -> T) -> T {
    let (running, over) = mpsc::channel::<()>();
    let patience = Duration::from_secs(asked("PATIENCE", 60));
    thread::spawn(move || {
        if over.recv_timeout(patience) == Err(RecvTimeoutError::Timeout) {
            // not by a macro, whose text the test harness keeps to itself
            let _ = writeln!(std::io::stderr(), "\nHANGS: {}", tell());
            std::process::abort();
        }
    });
    let value = run();
    drop(running);
    value
}

/// Numbers that look random, the same ones for each seed.
pub struct Dice(u64);

impl Dice {
    pub fn new(seed: u64) -> Dice {
        Dice((seed + 1).wrapping_mul(0x9e37_79b9_7f4a_7c15) | 1)
    }

    pub fn below(&mut self, count: u64) -> u64 {
        self.0 ^= self.0 << 13;
        self.0 ^= self.0 >> 7;
        self.0 ^= self.0 << 17;
        (self.0 >> 11) % count
    }
}

/// How many values of a test are alive, and how many were made.
#[derive(Clone, Default)]
pub struct Count {
    alive: Arc<AtomicI64>,
    made: Arc<AtomicU64>,
}

/// A value with a number of its own.
pub struct Counted {
    pub number: u64,
    alive: Arc<AtomicI64>,
}

impl Count {
    pub fn value(&self) -> Counted {
        self.alive.fetch_add(1, SeqCst);
        Counted { number: self.made.fetch_add(1, SeqCst), alive: self.alive.clone() }
    }

    pub fn alive(&self) -> i64 {
        self.alive.load(SeqCst)
    }
}

impl Drop for Counted {
    fn drop(&mut self) {
        self.alive.fetch_sub(1, SeqCst);
    }
}

// ---- an executor

struct Task {
    future: Mutex<Option<Pin<Box<dyn Future<Output = ()> + Send>>>>,
    is_queued: AtomicBool,
    pool: Arc<Shared>,
}

#[derive(Default)]
struct Shared {
    queue: Mutex<VecDeque<Arc<Task>>>,
    has_more: Condvar,
    left: AtomicUsize,
}

impl Wake for Task {
    fn wake(self: Arc<Task>) {
        if !self.is_queued.swap(true, SeqCst) {
            let pool = self.pool.clone();
            pool.queue.lock().unwrap().push_back(self);
            pool.has_more.notify_one();
        }
    }
}

/// A small executor.
#[derive(Default)]
pub struct Pool {
    shared: Arc<Shared>,
}

impl Pool {
    pub fn spawn(&self, future: impl Future<Output = ()> + Send + 'static) {
        self.shared.left.fetch_add(1, SeqCst);
        let future = Mutex::new(Some(Box::pin(future) as Pin<Box<dyn Future<Output = ()> + Send>>));
        Arc::new(Task { future, is_queued: AtomicBool::new(false), pool: self.shared.clone() }).wake();
    }

    /// Runs all tasks to their ends on so many threads.
    pub fn run(&self, threads: usize) {
        thread::scope(|scope| {
            for _ in 0..threads {
                scope.spawn(|| self.work());
            }
        });
    }

    fn next(&self) -> Option<Arc<Task>> {
        let mut queue = self.shared.queue.lock().unwrap();
        loop {
            if let Some(task) = queue.pop_front() {
                return Some(task);
            }
            if self.shared.left.load(SeqCst) == 0 {
                return None;
            }
            queue = self.shared.has_more.wait(queue).unwrap();
        }
    }

    fn work(&self) {
        while let Some(task) = self.next() {
            task.is_queued.store(false, SeqCst);
            let waker = Waker::from(task.clone());
            let mut future = task.future.lock().unwrap();
            let Some(polled) = future.as_mut() else { continue };
            if polled.as_mut().poll(&mut Context::from_waker(&waker)).is_ready() {
                *future = None;
                if self.shared.left.fetch_sub(1, SeqCst) == 1 {
                    // behind whoever has looked and is about to wait
                    drop(self.shared.queue.lock().unwrap());
                    self.shared.has_more.notify_all();
                }
            }
        }
    }
}
