//! Locks by number, kept by one thread. Who waits for a lock may take something else instead: a nack frees his place.
use puttolive::*;
use std::collections::{BTreeMap, VecDeque};
use std::time::Duration;

enum Request {
    Acquire { lock: u32, granted: Channel<()>, gone: Nack },
    Release { lock: u32 },
}

#[derive(Clone)]
struct Locks {
    requests: Sender<Request>,
}

/// Who waits for a lock that another has.
type Waiting = VecDeque<(Channel<()>, Nack)>;

impl Locks {
    fn new() -> Locks {
        let (requests, inbox) = channel();
        spawn(move || Locks::serve(inbox));
        Locks { requests }
    }

    /// An event: the lock is this thread's.
    fn acquire(&self, lock: u32) -> impl Event<Output = ()> {
        with_nack(move |gone| {
            let granted = Channel::new();
            let request = Request::Acquire { lock, granted: granted.clone(), gone };
            self.requests.send(request).expect("the server is there");
            granted.into_recv_evt()
        })
    }

    fn release(&self, lock: u32) {
        self.requests.send(Request::Release { lock }).expect("the server is there");
    }

    fn serve(inbox: Receiver<Request>) {
        let mut taken: BTreeMap<u32, Waiting> = BTreeMap::new();
        for request in inbox {
            match request {
                Request::Acquire { lock, granted, gone } => match taken.get_mut(&lock) {
                    Some(waiting) => waiting.push_back((granted, gone)),
                    None if Locks::grant(granted, gone) => drop(taken.insert(lock, Waiting::new())),
                    None => {}
                },
                Request::Release { lock } => {
                    let Some(waiting) = taken.get_mut(&lock) else { continue };
                    let next = std::iter::from_fn(|| waiting.pop_front());
                    if !{ next }.any(|(granted, gone)| Locks::grant(granted, gone)) {
                        taken.remove(&lock);
                    }
                }
            }
        }
    }

    /// Whether the client takes the lock, and has not gone.
    fn grant(granted: Channel<()>, gone: Nack) -> bool {
        choose![granted.send_evt(()).wrap(|()| true), gone.wrap(|()| false)].sync()
    }
}

fn main() {
    let locks = Locks::new();
    locks.acquire(1).sync();
    let second = locks.acquire(1).sync_within(Duration::from_millis(10));
    println!("the lock is mine; somebody else gets it within 10 ms: {}", second.is_some());
    locks.release(1);
}

#[test]
fn a_lock_has_one_holder() {
    use std::sync::atomic::{AtomicU32, Ordering::SeqCst};
    let (locks, inside) = (Locks::new(), AtomicU32::new(0));
    std::thread::scope(|scope| {
        for _ in 0..6 {
            scope.spawn(|| {
                for _ in 0..50 {
                    locks.acquire(7).sync();
                    assert_eq!(inside.fetch_add(1, SeqCst), 0);
                    std::thread::yield_now();
                    assert_eq!(inside.fetch_sub(1, SeqCst), 1);
                    locks.release(7);
                }
            });
        }
    });
}

#[test]
fn who_gives_up_leaves_no_trace() {
    let locks = Locks::new();
    locks.acquire(1).sync();
    for _ in 0..20 {
        assert_eq!(locks.acquire(1).sync_within(Duration::from_micros(200)), None);
    }
    assert_eq!(locks.acquire(2).sync_within(Duration::from_secs(5)), Some(()));
    locks.release(1);
    assert_eq!(locks.acquire(1).sync_within(Duration::from_secs(5)), Some(()));
}
