//! The workloads of bench/rust: `workloads KIND NAME SCALE` prints the rendezvous that it made and the nanoseconds that they
//! took. KIND is `puttolive`, `std` (sync_channel(0)), `crossbeam` or `tasks` (puttolive's, on four threads, or on those
//! of a fourth word). With the environment's STATS it tells on standard error what the hub has done.
mod kinds;
mod pool;

use kinds::{Crossbeam, Kind, Ours, Std};
use pool::Pool;
use puttolive::{Channel, Event, Hub, Nack, Signal, choose, with_nack};
use std::time::{Duration, Instant};
use std::{env, thread};

/// What one thread does.
type Work = Box<dyn FnOnce() + Send>;

fn run_all(works: Vec<Work>) {
    let start = |work| thread::Builder::new().stack_size(128 * 1024).spawn(work).expect("a thread");
    let threads: Vec<_> = works.into_iter().map(start).collect();
    threads.into_iter().for_each(|thread| thread.join().expect("no panic"));
}

/// Two threads, there and back.
fn ping_pong<K: Kind>(scale: u64) -> u64 {
    let ((to, inbox), (back, answers)) = (K::channel(), K::channel());
    let rounds = 512 * scale;
    let client = move || (0..rounds).fold(0, |n, _| {
        K::send(&to, n);
        K::recv(&answers)
    });
    run_all(vec![
        Box::new(move || assert_eq!(client(), rounds)),
        Box::new(move || (0..rounds).for_each(|_| K::send(&back, K::recv(&inbox) + 1))),
    ]);
    2 * rounds
}

/// 64 threads hand one token round.
fn ring<K: Kind>(scale: u64) -> u64 {
    let rounds = 512 * scale;
    let (first, mut from) = K::channel();
    let mut works: Vec<Work> = Vec::new();
    for _ in 1..64 {
        let (to, next) = K::channel();
        works.push(Box::new(move || (0..rounds).for_each(|_| K::send(&to, K::recv(&from) + 1))));
        from = next;
    }
    works.push(Box::new(move || {
        let last = (0..rounds).fold(0, |n, _| {
            K::send(&first, n);
            K::recv(&from)
        });
        assert_eq!(last, 63 * rounds);
    }));
    run_all(works);
    64 * rounds
}

/// So many senders, each with a receiver of its own.
fn pairs<K: Kind>(scale: u64, count: u64) -> u64 {
    let rounds = 1000 * scale;
    let mut works: Vec<Work> = Vec::new();
    for _ in 0..count {
        let (to, from) = K::channel();
        works.push(Box::new(move || (0..rounds).for_each(|n| K::send(&to, n))));
        works.push(Box::new(move || (0..rounds).for_each(|n| assert_eq!(K::recv(&from), n))));
    }
    run_all(works);
    count * rounds
}

/// 62 senders, and two receivers that choose among four channels, or eight.
fn fan_in<K: Kind>(scale: u64, width: usize) -> u64 {
    let (rounds, senders) = (33 * scale, 62);
    let mut works: Vec<Work> = Vec::new();
    let mut ends = Vec::new();
    for _ in 0..2 {
        let (to, from): (Vec<_>, Vec<_>) = (0..width).map(|_| K::channel()).unzip();
        ends.push(to);
        works.push(Box::new(move || (0..rounds * senders / 2).for_each(|_| _ = K::recv_any(&from))));
    }
    for number in 0..senders as usize {
        let to = ends[number % 2][number / 2 % width].clone();
        works.push(Box::new(move || (0..rounds).for_each(|n| K::send(&to, n))));
    }
    // whoever receives keeps no sender, and ends by the count
    run_all(works);
    rounds * senders
}

/// 32 clients, each of which asks a server with a nack and takes something else.
fn nacks(scale: u64) -> u64 {
    let rounds = 64 * scale;
    let mut works: Vec<Work> = Vec::new();
    for _ in 0..32 {
        let (reply, go) = (Channel::<u64>::new(), Channel::<u64>::new());
        let requests = Channel::<(Channel<u64>, Nack)>::new();
        let (own, inbox, other) = (reply.clone(), requests.clone(), go.clone());
        works.push(Box::new(move || {
            for _ in 0..rounds {
                let asked = with_nack(|gone| {
                    requests.send((reply.clone(), gone));
                    reply.recv_evt()
                });
                choose![asked, go.recv_evt()].sync();
            }
        }));
        works.push(Box::new(move || {
            let _kept = own;
            for _ in 0..rounds {
                let (reply, gone) = inbox.recv();
                other.send(9);
                choose![reply.send_evt(7).wrap(|()| 1), gone.wrap(|()| 2)].sync();
            }
        }));
    }
    run_all(works);
    32 * 3 * rounds
}

/// Pairs of tasks, there and back, each on channels of its own.
fn pairs_of_tasks(scale: u64, pairs: u64, threads: usize) -> u64 {
    let rounds = scale;
    let pool = Pool::new();
    for _ in 0..pairs {
        let (to, back) = (Channel::<u64>::new(), Channel::<u64>::new());
        let (inbox, answers) = (to.clone(), back.clone());
        pool.spawn(async move {
            for n in 0..rounds {
                to.send_evt(n).wait().await;
                assert_eq!(answers.recv_evt().wait().await, n + 1);
            }
        });
        pool.spawn(async move {
            for _ in 0..rounds {
                let n = inbox.recv_evt().wait().await;
                back.send_evt(n + 1).wait().await;
            }
        });
    }
    pool.run(threads);
    2 * pairs * rounds
}

/// While 62 wait, one polls, so that tables end: the nanoseconds of such an end, and how many there were.
fn turns(scale: u64) -> (u64, Duration) {
    let hub = Hub::global();
    let stop = Signal::new();
    thread::scope(|scope| {
        for _ in 0..62 {
            let (never, stop) = (Channel::<()>::new(), &stop);
            scope.spawn(move || choose![never.recv_evt(), stop.evt()].sync());
        }
        thread::sleep(Duration::from_millis(50));
        let channel = Channel::<u64>::new();
        (0..10_000 * scale).for_each(|_| assert!(channel.try_recv().is_none()));
        stop.fire();
    });
    (hub.stats().turns, hub.stats().turning)
}

/// 60 threads wait for a second: the processor time that they take.
fn idle() -> u64 {
    let stop = Signal::new();
    thread::scope(|scope| {
        for _ in 0..60 {
            let (never, stop) = (Channel::<()>::new(), &stop);
            scope.spawn(move || choose![never.recv_evt(), stop.evt()].sync());
        }
        thread::sleep(Duration::from_millis(100));
        let before = processor_time();
        thread::sleep(Duration::from_secs(1));
        stop.fire();
        processor_time() - before
    })
}

/// Of this process, in ticks of 10 ms.
fn processor_time() -> u64 {
    let stat = std::fs::read_to_string("/proc/self/stat").expect("Linux tells it");
    let behind = stat.rsplit(')').next().expect("a name in parentheses");
    behind.split_whitespace().skip(11).take(2).map(|ticks| ticks.parse::<u64>().expect("a number")).sum()
}

fn run<K: Kind>(name: &str, scale: u64) -> Option<u64> {
    Some(match name {
        "ping_pong" => ping_pong::<K>(scale),
        "ring" => ring::<K>(scale),
        "two" => pairs::<K>(scale, 2),
        "pairs" => pairs::<K>(scale, 32),
        "fan_in" if K::CHOOSES => fan_in::<K>(scale, 4),
        "fan_in_8" if K::CHOOSES => fan_in::<K>(scale, 8),
        _ => return None,
    })
}

fn main() {
    let words: Vec<String> = env::args().skip(1).collect();
    let [kind, name, scale, more @ ..] = words.as_slice() else { panic!("KIND NAME SCALE") };
    let scale = scale.parse().expect("SCALE is a number");
    let threads = more.first().map_or(4, |threads| threads.parse().expect("a number of threads"));
    let begun = Instant::now();
    let made = match (kind.as_str(), name.as_str()) {
        ("puttolive", "nacks") => Some(nacks(scale)),
        ("puttolive", "turns") => {
            let (turns, time) = turns(scale);
            return println!("{turns} {}", time.as_nanos());
        }
        ("puttolive", "idle") => return println!("1 {}", 10_000_000 * idle()),
        ("tasks", pairs) => Some(pairs_of_tasks(scale, pairs.parse().expect("how many pairs"), threads)),
        ("puttolive", name) => run::<Ours>(name, scale),
        ("std", name) => run::<Std>(name, scale),
        ("crossbeam", name) => run::<Crossbeam>(name, scale),
        _ => None,
    };
    let made = made.unwrap_or_else(|| panic!("no workload {name} of {kind}"));
    println!("{made} {}", begun.elapsed().as_nanos());
    if env::var_os("STATS").is_some() {
        eprintln!("{:?}", Hub::global());
    }
}
