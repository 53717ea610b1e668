//! Ten million rendezvous, or so many as its argument says: of threads and tasks, one channel and wide choices, large tables
//! and small ones. Each value is received once. It tells how far it is.

use puttolive::*;
use std::sync::atomic::{AtomicU64, Ordering::SeqCst};
use std::task::{Context, Poll, Wake, Waker};
use std::thread;
use std::time::Instant;

/// Parts of the whole, one after another: how many threads send and how many receive, by how many channels, and in which
/// hub.
const PARTS: [(usize, usize, usize, Config); 10] = [
    (1, 1, 1, Config { slots: 64, rows: 16, passes: 16, spin: 20 }),
    (4, 4, 1, Config { slots: 64, rows: 16, passes: 16, spin: 20 }),
    (4, 4, 4, Config { slots: 64, rows: 16, passes: 16, spin: 20 }),
    (3, 5, 3, Config { slots: 8, rows: 2, passes: 4, spin: 20 }),
    (2, 2, 2, Config { slots: 8, rows: 8, passes: 2, spin: 0 }),
    (6, 2, 1, Config { slots: 6, rows: 4, passes: 4, spin: 0 }),
    (40, 40, 20, Config { slots: 64, rows: 16, passes: 16, spin: 20 }),
    (3, 3, 12, Config { slots: 64, rows: 16, passes: 16, spin: 20 }),
    (5, 3, 300, Config { slots: 64, rows: 16, passes: 16, spin: 20 }),
    (1, 1, 1, Config { slots: 4, rows: 1, passes: 1, spin: 20 }),
];

/// Which numbers were received.
struct Marks(Vec<AtomicU64>);

impl Marks {
    fn new(count: u64) -> Marks {
        Marks((0..count.div_ceil(64)).map(|_| AtomicU64::new(0)).collect())
    }

    fn mark(&self, number: u64) {
        let bit = 1 << (number % 64);
        assert_eq!(self.0[(number / 64) as usize].fetch_or(bit, SeqCst) & bit, 0, "{number} was received twice");
    }

    fn count(&self) -> u64 {
        self.0.iter().map(|word| u64::from(word.load(SeqCst).count_ones())).sum()
    }
}

struct Unparks(thread::Thread);

impl Wake for Unparks {
    fn wake(self: std::sync::Arc<Self>) {
        self.0.unpark();
    }
}

/// Runs a task in this thread.
fn block_on<F: Future>(task: F) -> F::Output {
    let mut task = std::pin::pin!(task);
    let waker = Waker::from(std::sync::Arc::new(Unparks(thread::current())));
    loop {
        if let Poll::Ready(output) = task.as_mut().poll(&mut Context::from_waker(&waker)) {
            return output;
        }
        thread::park();
    }
}

/// What all of a part share.
struct Part {
    next: AtomicU64,
    values: u64,
    marks: Marks,
}

impl Part {
    /// Sends numbers by whichever of these is met first, until all are sent or returned.
    fn send(&self, halves: &[Sender<u64>], is_task: bool) {
        loop {
            let number = self.next.fetch_add(1, SeqCst);
            if number >= self.values {
                return;
            }
            let any = choose(halves.iter().map(|half| half.send_evt(number)));
            let sent = if is_task { block_on(any.wait()) } else { any.sync() };
            sent.expect("receivers are there");
        }
    }

    /// Receives from all of these until they are closed.
    fn receive(&self, mut halves: Vec<Receiver<u64>>, is_task: bool) {
        while !halves.is_empty() {
            let one = |(at, half)| Receiver::recv_evt(half).wrap(move |got| (at, got));
            let any = choose(halves.iter().enumerate().map(one));
            let (at, got) = if is_task { block_on(any.wait()) } else { any.sync() };
            match got {
                Ok(number) => self.marks.mark(number),
                Err(RecvError) => drop(halves.swap_remove(at)),
            }
        }
    }
}

fn play(senders: usize, receivers: usize, channels: usize, config: Config, values: u64) {
    let hub = Hub::with(config);
    let (sending, receiving): (Vec<_>, Vec<_>) = (0..channels).map(|_| hub.halves::<u64>()).unzip();
    let part = Part { next: AtomicU64::new(0), values, marks: Marks::new(values) };
    thread::scope(|scope| {
        for number in 0..senders {
            let (part, halves) = (&part, sending.clone());
            scope.spawn(move || part.send(&halves, number % 3 == 2));
        }
        for number in 0..receivers {
            let (part, halves) = (&part, receiving.clone());
            scope.spawn(move || part.receive(halves, number % 3 == 2));
        }
        drop((sending, receiving));
    });
    assert_eq!(part.marks.count(), values, "a value was lost");
}

fn main() {
    let all: u64 = std::env::args().nth(1).map_or(10_000_000, |text| text.parse().expect("how many rendezvous"));
    const ROUNDS: u64 = 5;
    let begun = Instant::now();
    let mut done = 0;
    for round in 0..ROUNDS {
        for (senders, receivers, channels, config) in PARTS {
            let is_last = round == ROUNDS - 1 && (senders, channels) == (1, 1) && config.rows == 1;
            // what a choice of 300 costs is paid less often
            let share = all / (ROUNDS * PARTS.len() as u64);
            let values = if is_last { all - done } else { share / (channels as u64 / 10).max(1) };
            play(senders, receivers, channels, config, values);
            done += values;
        }
        println!("{done} of {all} rendezvous, {:.0?}: nothing lost, nothing received twice", begun.elapsed());
    }
}
