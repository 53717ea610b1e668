//! Random choices between many threads, in tables that end all the time. `SCALE=n` plays n times as much.
#![cfg(not(schedules))]

mod common;

use common::{Count, Counted, Dice, asked, within};
use puttolive::*;
use std::cell::RefCell;
use std::collections::HashSet;
use std::sync::atomic::{AtomicU64, Ordering::SeqCst};
use std::sync::{Arc, Mutex, MutexGuard, PoisonError, mpsc};
use std::thread;
use std::time::Duration;

enum Did {
    Sent(u64),
    Received(Counted),
    Stopped,
    Late,
}

/// Threads that all choose among sends and receives at random. All may use the first channel, so any two can meet.
#[derive(Clone, Copy, Debug)]
struct Storm {
    threads: u64,
    channels: u64,
    /// A choice has so many events more than two, at most.
    width: u64,
    /// It ends when so many values were received.
    values: u64,
    config: Config,
    has_nacks: bool,
    seed: u64,
}

/// What the threads of a storm share.
struct Shared {
    channels: Vec<Channel<Counted>>,
    stop: Signal,
    count: Count,
    received: AtomicU64,
}

/// A nack, when its function has run, of the event with this number.
type Told = (u64, mpsc::Receiver<Nack>);

impl Storm {
    /// Plays it: each value that was sent is received, once.
    fn play(self) {
        let hub = Hub::audited(self.config);
        let shared = Shared {
            channels: (0..self.channels).map(|_| hub.channel()).collect(),
            stop: Signal::new(),
            count: Count::default(),
            received: AtomicU64::new(0),
        };
        let known = hub.clone();
        let done: Vec<_> = within(
            move || format!("{self:?} {:?}", known.stats()),
            || {
                thread::scope(|scope| {
                    let shared = &shared;
                    let threads = (0..self.threads).map(|thread| scope.spawn(move || self.thread(shared, thread)));
                    let threads: Vec<_> = threads.collect();
                    threads.into_iter().map(|thread| thread.join().unwrap()).collect()
                })
            },
        );
        let (mut sent, mut received) = (HashSet::new(), HashSet::new());
        for (of_thread_sent, of_thread_received) in done {
            assert!(of_thread_sent.into_iter().all(|number| sent.insert(number)), "sent twice: {self:?}");
            assert!(of_thread_received.into_iter().all(|number| received.insert(number)), "received twice: {self:?}");
        }
        assert_eq!(sent, received, "{self:?}");
        assert!(received.len() as u64 >= self.values);
        assert_eq!(shared.count.alive(), 0, "{self:?}");
        println!("{self:?}: {} values, {:?}", received.len(), hub.stats());
    }

    /// What one thread has sent and received.
    fn thread(self, shared: &Shared, thread: u64) -> (Vec<u64>, Vec<u64>) {
        let mut dice = Dice::new(self.seed << 32 | thread);
        let (mut sent, mut received) = (Vec::new(), Vec::new());
        loop {
            let (mut told, chosen) = (Vec::new(), Arc::new(AtomicU64::new(u64::MAX)));
            let some =
                choose![self.choice(shared, &mut dice, &mut told, &chosen), shared.stop.evt().wrap(|()| Did::Stopped)];
            let did = match dice.below(4) {
                0 => some.or(timeout(Duration::from_micros(dice.below(100))).wrap(|()| Did::Late)).sync(),
                1 => some.poll().unwrap_or(Did::Late),
                _ => some.sync(),
            };
            let chosen = chosen.load(SeqCst);
            for (number, nack) in told {
                let has_fired = nack.recv().unwrap().poll().is_some();
                assert_eq!(has_fired, number != chosen, "the nack of {number}, where {chosen} was chosen: {self:?}");
            }
            match did {
                Did::Sent(number) => sent.push(number),
                Did::Received(value) => {
                    received.push(value.number);
                    if shared.received.fetch_add(1, SeqCst) + 1 == self.values {
                        shared.stop.fire();
                    }
                }
                Did::Stopped => return (sent, received),
                Did::Late => {}
            }
        }
    }

    /// One of the events of a choice.
    fn event<'a>(
        self,
        shared: &'a Shared,
        dice: &mut Dice,
        number: u64,
        chosen: &Arc<AtomicU64>,
    ) -> BoxedEvent<'a, Did> {
        let is_send = if number < 2 { number == 0 } else { dice.below(2) == 0 };
        let channel = &shared.channels[if number < 2 { 0 } else { dice.below(self.channels) as usize }];
        let mark = chosen.clone();
        if is_send {
            let value = shared.count.value();
            let sent = value.number;
            let event = channel.send_evt(value).wrap(move |()| {
                mark.store(number, SeqCst);
                Did::Sent(sent)
            });
            event.boxed()
        } else {
            let event = channel.recv_evt().wrap(move |value| {
                mark.store(number, SeqCst);
                Did::Received(value)
            });
            event.boxed()
        }
    }

    fn choice<'a>(
        self,
        shared: &'a Shared,
        dice: &mut Dice,
        told: &mut Vec<Told>,
        chosen: &Arc<AtomicU64>,
    ) -> Choose<Vec<BoxedEvent<'a, Did>>> {
        let mut events = Vec::new();
        for number in 0..2 + dice.below(self.width + 1) {
            let event = self.event(shared, dice, number, chosen);
            if !self.has_nacks || dice.below(3) > 0 {
                events.push(event);
                continue;
            }
            let (give, take) = mpsc::channel();
            told.push((number, take));
            let enclosed = with_nack(move |nack| {
                give.send(nack).unwrap();
                event
            });
            events.push(enclosed.boxed());
        }
        choose(events)
    }
}

/// One test at a time: they compare how often threads have their turns.
fn alone() -> MutexGuard<'static, ()> {
    static ALONE: Mutex<()> = Mutex::new(());
    ALONE.lock().unwrap_or_else(PoisonError::into_inner)
}

fn config(slots: u8, rows: u16, passes: u8, spin: u32) -> Config {
    Config { slots, rows, passes, spin }
}

/// Tables of 1 to 8 rows, which turn over all the time.
#[test]
fn storms() {
    let _alone = alone();
    for seed in 0..asked("SCALE", 1) {
        for (threads, channels, width, config) in [
            (2, 1, 0, config(64, 64, 16, 50)),
            (2, 1, 0, config(64, 2, 16, 50)),
            (3, 2, 3, config(64, 2, 2, 50)),
            (4, 3, 4, config(8, 2, 1, 50)),
            (4, 3, 4, config(6, 3, 4, 0)),
            (6, 4, 5, config(16, 4, 16, 50)),
            (6, 4, 5, config(8, 5, 3, 0)),
            (8, 8, 5, config(16, 8, 8, 50)),
            (8, 2, 0, config(64, 1, 16, 50)),
        ] {
            for has_nacks in [false, true] {
                Storm { threads, channels, width, values: 2000, config, has_nacks, seed }.play();
            }
        }
    }
}

/// More threads than slots: syncs are put out of the table and brought in again.
#[test]
fn crowds() {
    let _alone = alone();
    for seed in 0..asked("SCALE", 1) {
        for (threads, channels, width, config) in [
            (4, 2, 1, config(2, 2, 1, 0)),
            (4, 2, 1, config(4, 2, 1, 0)),
            (4, 2, 1, config(5, 5, 2, 0)),
            (10, 3, 2, config(5, 8, 4, 0)),
            (20, 6, 4, config(8, 4, 4, 0)),
            (100, 10, 3, config(64, 8, 16, 0)),
        ] {
            Storm { threads, channels, width, values: 2000, config, has_nacks: seed % 2 == 0, seed }.play();
        }
    }
}

/// Choices wider than a row, and more channels than numbers.
#[test]
fn wide() {
    let _alone = alone();
    for seed in 0..asked("SCALE", 1) {
        for (threads, channels, width, config) in [
            (3, 20, 20, config(64, 16, 4, 20)),
            (6, 30, 30, config(7, 4, 2, 20)),
            (8, 600, 6, config(64, 16, 16, 20)),
            (5, 1000, 30, config(16, 8, 16, 20)),
        ] {
            Storm { threads, channels, width, values: 1000, config, has_nacks: true, seed }.play();
        }
    }
}

/// Threads that can each meet one other thread only, so a pair that is overlooked hangs, beside some that wait for what
/// never comes.
fn pairs(count: usize, each: u32, idle: usize, config: Config) {
    let hub = Hub::audited(config);
    let (stop, known) = (Signal::new(), hub.clone());
    within(
        move || format!("{count} pairs {each} times, {idle} idle: {config:?} {:?}", known.stats()),
        || {
            thread::scope(|scope| {
                for _ in 0..idle {
                    let (never_comes, stop) = (hub.channel::<()>(), &stop);
                    let small = thread::Builder::new().stack_size(64 * 1024);
                    small.spawn_scoped(scope, move || choose![never_comes.recv_evt(), stop.evt()].sync()).unwrap();
                }
                let mut ends = Vec::new();
                for pair in 0..count {
                    let [there, back, decoy] = [(); 3].map(|()| hub.channel::<u32>());
                    let (their_there, their_back, their_decoy) = (there.clone(), back.clone(), decoy.clone());
                    ends.push(scope.spawn(move || {
                        for number in 0..each {
                            match pair % 2 {
                                0 => there.send(number),
                                _ => choose![there.send_evt(number), decoy.recv_evt().wrap(drop)].sync(),
                            }
                            assert_eq!(back.recv(), number + 1);
                        }
                    }));
                    ends.push(scope.spawn(move || {
                        for number in 0..each {
                            let got = choose![their_decoy.recv_evt(), their_there.recv_evt()].sync();
                            assert_eq!(got, number);
                            their_back.send(number + 1);
                        }
                    }));
                }
                ends.into_iter().for_each(|end| end.join().unwrap());
                stop.fire();
            });
        },
    );
    println!("{count} pairs {each} times, {idle} idle, {config:?}: {:?}", hub.stats());
}

#[test]
fn pairs_meet() {
    let _alone = alone();
    for _ in 0..asked("SCALE", 1) {
        pairs(1, 2000, 0, config(64, 2, 16, 20));
        pairs(1, 2000, 0, config(64, 64, 1, 20));
        pairs(4, 500, 0, config(64, 2, 3, 20));
        pairs(4, 300, 0, config(4, 2, 2, 20));
        pairs(4, 300, 0, config(7, 16, 16, 20));
        pairs(20, 50, 0, config(16, 4, 8, 20));
        pairs(100, 10, 0, config(64, 8, 16, 20));
        pairs(2, 300, 100, config(64, 16, 16, 20));
        pairs(2, 100, 200, config(8, 8, 4, 20));
    }
}

/// One token goes round a ring of more threads than slots.
#[test]
fn ring() {
    let _alone = alone();
    for (threads, rounds, slots, rows) in [(10, 100, 64, 4), (150, 5, 64, 16), (40, 20, 6, 4)] {
        let hub = Hub::audited(config(slots, rows, 8, 0));
        let known = hub.clone();
        within(
            move || format!("a ring of {threads} {:?}", known.stats()),
            || {
                let channels: Vec<Channel<u64>> = (0..threads).map(|_| hub.channel()).collect();
                thread::scope(|scope| {
                    for two in channels.windows(2) {
                        scope.spawn(move || (0..rounds).for_each(|_| two[1].send(two[0].recv() + 1)));
                    }
                    for _ in 0..rounds {
                        channels[0].send(1);
                        assert_eq!(channels[threads - 1].recv(), threads as u64);
                    }
                });
            },
        );
        println!("a ring of {threads}: {:?}", hub.stats());
    }
}

const SHARE: u64 = 400;

/// Of many threads that do the same on one channel all the time, each has its turn: between three quarters and five
/// quarters of its share. A busy machine keeps some of them from running for long: so it is asked ten times at the most.
fn shares(threads: usize, config: Config, send: bool) {
    let mut had = Vec::new();
    for _ in 0..10 {
        let (least, most) = of_hub(threads, config, send);
        println!("{threads} threads, send {send}, {config:?}: of {SHARE} each the least {least}, the most {most}");
        if SHARE * 3 / 4 <= least && most <= SHARE * 5 / 4 {
            return;
        }
        had.push((least, most));
    }
    let beside = of_std(threads);
    panic!("{threads} threads, send {send}, {config:?}: {had:?} of {SHARE}; std's channel beside: {beside:?}");
}

fn of_hub(threads: usize, config: Config, send: bool) -> (u64, u64) {
    let hub = Hub::audited(config);
    let channel: Channel<usize> = hub.channel();
    let (stop, known) = (Signal::new(), hub.clone());
    let turn = |number: usize| match send {
        true => choose![channel.send_evt(number).wrap(|()| true), stop.evt().wrap(|()| false)].sync(),
        false => choose![channel.recv_evt().wrap(|_| true), stop.evt().wrap(|()| false)].sync(),
    };
    let meet = || match send {
        true => drop(channel.recv()),
        false => channel.send(0),
    };
    let tell = move || format!("{threads} have turns, {config:?} {:?}", known.stats());
    within(tell, || least_and_most(threads, &turn, meet, || stop.fire()))
}

fn of_std(threads: usize) -> (u64, u64) {
    let (sender, receiver) = mpsc::sync_channel(0);
    let receiver = RefCell::new(Some(receiver));
    let meet = || _ = receiver.borrow().as_ref().expect("it is there").recv();
    let tell = move || format!("{threads} have turns by std's channel");
    within(tell, || least_and_most(threads, &|number| sender.send(number).is_ok(), meet, || drop(receiver.take())))
}

/// How often at least and at most each of the threads has its turn, from when all of them have begun.
fn least_and_most(
    threads: usize,
    turn: &(impl Fn(usize) -> bool + Sync),
    meet: impl Fn(),
    stop: impl FnOnce(),
) -> (u64, u64) {
    let turns: Vec<AtomicU64> = (0..threads).map(|_| AtomicU64::new(0)).collect();
    let counts = || turns.iter().map(|count| count.load(SeqCst)).collect::<Vec<_>>();
    thread::scope(|scope| {
        for (number, count) in turns.iter().enumerate() {
            scope.spawn(move || {
                while turn(number) {
                    count.fetch_add(1, SeqCst);
                }
            });
        }
        while counts().contains(&0) {
            meet();
        }
        let before = counts();
        (0..SHARE * threads as u64).for_each(|_| meet());
        let after = counts();
        stop();
        let had = || after.iter().zip(&before).map(|(after, before)| after - before);
        (had().min().unwrap_or(0), had().max().unwrap_or(0))
    })
}

#[test]
fn nobody_starves() {
    let _alone = alone();
    for threads in [50, 100, 200] {
        shares(threads, Config::default(), true);
        shares(threads, Config { spin: 0, ..Config::default() }, true);
    }
    shares(40, config(12, 64, 16, 0), true);
    shares(100, Config::default(), false);
}

/// Where several events of a choice have partners all the time, each is chosen.
#[test]
fn choices_are_fair() {
    let _alone = alone();
    const ROUNDS: u32 = 20_000;
    let hub = Hub::audited(Config { spin: 0, ..Config::default() });
    let channels = [(); 3].map(|()| hub.channel::<usize>());
    let stop = Signal::new();
    let counts = within(
        || "fair choices".into(),
        || {
            thread::scope(|scope| {
                for sender in 0..12 {
                    let (channels, stop) = (&channels, &stop);
                    let send = move || {
                        let channel = sender % channels.len();
                        choose![channels[channel].send_evt(channel).wrap(|()| true), stop.evt().wrap(|()| false)].sync()
                    };
                    scope.spawn(move || while send() {});
                }
                let mut counts = [0; 3];
                for _ in 0..ROUNDS {
                    counts[choose(channels.iter().map(|channel| channel.recv_evt())).sync()] += 1;
                }
                stop.fire();
                counts
            })
        },
    );
    assert!(counts.iter().all(|count| *count > ROUNDS / 9), "{counts:?}");
}
