//! A small executor: one queue, some threads.
use std::collections::VecDeque;
use std::pin::Pin;
use std::sync::atomic::{AtomicBool, AtomicUsize, Ordering::SeqCst};
use std::sync::{Arc, Condvar, Mutex};
use std::task::{Context, Wake, Waker};
use std::thread;

type Future = Pin<Box<dyn std::future::Future<Output = ()> + Send>>;

struct Task {
    future: Mutex<Option<Future>>,
    is_queued: AtomicBool,
    shared: Arc<Shared>,
}

#[derive(Default)]
struct Shared {
    queue: Mutex<VecDeque<Arc<Task>>>,
    more: Condvar,
    left: AtomicUsize,
}

#[derive(Default)]
pub struct Pool {
    shared: Arc<Shared>,
}

impl Wake for Task {
    fn wake(self: Arc<Task>) {
        if !self.is_queued.swap(true, SeqCst) {
            let shared = self.shared.clone();
            shared.queue.lock().unwrap().push_back(self);
            shared.more.notify_one();
        }
    }
}

impl Pool {
    pub fn new() -> Pool {
        Pool::default()
    }

    pub fn spawn(&self, future: impl std::future::Future<Output = ()> + Send + 'static) {
        self.shared.left.fetch_add(1, SeqCst);
        let future = Mutex::new(Some(Box::pin(future) as Future));
        Arc::new(Task { future, is_queued: AtomicBool::new(false), shared: self.shared.clone() }).wake();
    }

    /// Runs all tasks to their ends on so many threads.
    pub fn run(&self, threads: usize) {
        if threads == 1 {
            return self.work();
        }
        thread::scope(|scope| (0..threads).for_each(|_| drop(scope.spawn(|| self.work()))));
    }

    fn work(&self) {
        while let Some(task) = self.next() {
            task.is_queued.store(false, SeqCst);
            let waker = Waker::from(task.clone());
            let mut future = task.future.lock().unwrap();
            let is_over = |future: &mut Future| future.as_mut().poll(&mut Context::from_waker(&waker)).is_ready();
            if future.as_mut().is_some_and(is_over) {
                *future = None;
                if self.shared.left.fetch_sub(1, SeqCst) == 1 {
                    self.shared.more.notify_all();
                }
            }
        }
    }

    /// The next task, or none where all have ended.
    fn next(&self) -> Option<Arc<Task>> {
        let mut queue = self.shared.queue.lock().unwrap();
        loop {
            if let Some(task) = queue.pop_front() {
                return Some(task);
            }
            if self.shared.left.load(SeqCst) == 0 {
                return None;
            }
            queue = self.shared.more.wait(queue).unwrap();
        }
    }
}
