//! Programs as a user of Concurrent ML writes them.
#![cfg(not(schedules))]

mod common;

use puttolive::*;
use std::collections::VecDeque;
use std::sync::Arc;
use std::sync::atomic::{AtomicU32, Ordering::SeqCst};
use std::thread;
use std::time::{Duration, Instant};

fn within<T>(run: impl FnOnce() -> T) -> T {
    common::within(|| "a program".into(), run)
}

#[test]
fn one_value() {
    within(|| {
        let channel = Channel::new();
        let thread = spawn({
            let channel = channel.clone();
            move || channel.send("hello".to_string())
        });
        assert_eq!(channel.recv(), "hello");
        thread.join().unwrap();
    });
}

#[test]
fn alone() {
    within(|| {
        assert_eq!(always(3).sync(), 3);
        let channel: Channel<u8> = Channel::new();
        assert_eq!(channel.recv_evt().poll(), None);
        assert_eq!(channel.send_evt(3).poll(), None);
        assert_eq!(channel.try_recv(), None);
        assert_eq!(channel.try_send(3), Err(3));
        assert_eq!(channel.recv_evt().sync_within(Duration::from_millis(5)), None);
        assert_eq!(choose![never(), channel.recv_evt(), always(4)].sync(), 4);
        timeout(Duration::from_millis(1)).sync();
        let signal = Signal::new();
        assert_eq!(signal.evt().poll(), None);
        signal.fire();
        signal.evt().sync();
        assert_eq!(choose![signal.evt().wrap(|()| 1), channel.recv_evt()].sync(), 1);
        assert_eq!(choose((0..3).map(always)).sync(), 0);
    });
}

/// A partner is met before an `always`, wherever that stands in the choice.
#[test]
fn a_partner_comes_before_an_always() {
    within(|| {
        let channel = Channel::new();
        for round in 0..20 {
            let thread = spawn({
                let channel = channel.clone();
                move || channel.send(round)
            });
            while choose![always(None), channel.recv_evt().wrap(Some)].sync() != Some(round) {
                thread::yield_now();
            }
            thread.join().unwrap();
        }
    });
}

/// A request with a channel for the reply. The server learns by the nack that the client chose otherwise.
#[test]
fn client_and_server() {
    struct Request {
        number: u32,
        reply: Channel<u32>,
        gone: Nack,
    }
    fn call(server: &Channel<Request>, number: u32) -> impl Event<Output = u32> {
        with_nack(move |gone| {
            let reply = Channel::new();
            server.send(Request { number, reply: reply.clone(), gone });
            reply.into_recv_evt()
        })
    }
    within(|| {
        let requests: Channel<Request> = Channel::new();
        let (stop, slow) = (Signal::new(), Channel::<()>::new());
        let server = spawn({
            let (requests, stop, slow) = (requests.clone(), stop.clone(), slow.clone());
            move || {
                let (mut served, mut cancelled) = (0, 0);
                loop {
                    select! {
                        request = requests.recv_evt() => {
                            if request.number > 100 {
                                slow.recv();
                            }
                            select! {
                                _ = request.reply.send_evt(request.number + 1) => served += 1,
                                _ = request.gone => cancelled += 1,
                            }
                        },
                        _ = stop.evt() => return (served, cancelled),
                    }
                }
            }
        });
        for number in 0..100 {
            assert_eq!(call(&requests, number).sync(), number + 1);
        }
        for number in 101..151 {
            // the server is kept from replying until the client has gone
            assert_eq!(call(&requests, number).sync_within(Duration::from_micros(200)), None);
            slow.send(());
        }
        stop.fire();
        assert_eq!(server.join().unwrap(), (100, 50));
    });
}

/// Two threads exchange values over one channel: each offers both sides at once.
struct Swap<T> {
    channel: Channel<(T, Channel<T>)>,
}

impl<T: Send + Clone> Swap<T> {
    fn swap(&self, mine: T) -> impl Event<Output = T> {
        guard(move || {
            let back = Channel::new();
            let out = mine.clone();
            choose![
                self.channel.recv_evt().wrap(move |(theirs, back)| {
                    back.send(out);
                    theirs
                }),
                self.channel.send_evt((mine, back.clone())).wrap(move |()| back.recv()),
            ]
        })
    }
}

#[test]
fn swap_channel() {
    within(|| {
        let swaps = Arc::new(Swap { channel: Channel::new() });
        let thread = spawn({
            let swaps = swaps.clone();
            move || (0..500).map(|number| swaps.swap(number).sync()).sum::<u32>()
        });
        let sum: u32 = (1000..1500).map(|number| swaps.swap(number).sync()).sum();
        assert_eq!(sum, (0..500).sum());
        assert_eq!(thread.join().unwrap(), (1000..1500).sum());
    });
}

/// A thread between two channels, which holds what was sent and not yet received.
#[test]
fn buffered_channel() {
    within(|| {
        let (input, output) = (Channel::<u32>::new(), Channel::<u32>::new());
        let stop = Signal::new();
        let buffer = spawn({
            let (input, output, stop) = (input.clone(), output.clone(), stop.clone());
            move || {
                let mut held = VecDeque::new();
                loop {
                    let first = held.front().map(|value| output.send_evt(*value));
                    select! {
                        value = input.recv_evt() => held.push_back(value),
                        _ = choose(first) => { held.pop_front(); },
                        _ = stop.evt() => return held.len(),
                    }
                }
            }
        });
        for value in 0..100 {
            input.send(value);
        }
        for value in 0..100 {
            assert_eq!(output.recv(), value);
        }
        stop.fire();
        assert_eq!(buffer.join().unwrap(), 0);
    });
}

/// Each reader gets each value: a chain of threads, one a reader.
#[test]
fn multicast() {
    within(|| {
        let first: Channel<u32> = Channel::new();
        let mut from = first.clone();
        let mut ports = Vec::new();
        for _ in 0..5 {
            let (next, port) = (Channel::new(), Channel::new());
            spawn({
                let (from, next, port) = (from, next.clone(), port.clone());
                move || loop {
                    let value: u32 = from.recv();
                    port.send(value);
                    next.send(value);
                }
            });
            ports.push(port);
            from = next;
        }
        spawn(move || {
            loop {
                from.recv();
            }
        });
        let source = spawn(move || (0..50).for_each(|value| first.send(value)));
        for value in 0..50 {
            for port in &ports {
                assert_eq!(port.recv(), value);
            }
        }
        source.join().unwrap();
    });
}

#[test]
fn fan_in() {
    within(|| {
        let channels: Vec<Channel<u32>> = (0..5).map(|_| Channel::new()).collect();
        for (number, channel) in (0..).zip(&channels) {
            let channel = channel.clone();
            spawn(move || (0..100).for_each(|value| channel.send(1000 * number + value)));
        }
        let mut next = [0; 5];
        for _ in 0..500 {
            let value = choose(channels.iter().map(|channel| channel.recv_evt())).sync();
            let from = value as usize / 1000;
            assert_eq!(value % 1000, next[from]);
            next[from] += 1;
        }
        assert_eq!(next, [100; 5]);
    });
}

/// A lock as a thread: whoever waits for it may take something else instead.
#[test]
fn lock_server() {
    within(|| {
        let (acquire, release) = (Channel::<()>::new(), Channel::<()>::new());
        let stop = Signal::new();
        let server = spawn({
            let (acquire, release, stop) = (acquire.clone(), release.clone(), stop.clone());
            move || loop {
                select! {
                    _ = acquire.recv_evt() => release.recv(),
                    _ = stop.evt() => return,
                }
            }
        });
        let count = Arc::new(AtomicU32::new(0));
        let user = |_| {
            let (acquire, release, count) = (acquire.clone(), release.clone(), count.clone());
            spawn(move || {
                for _ in 0..50 {
                    acquire.send(());
                    let seen = count.load(SeqCst);
                    thread::yield_now();
                    count.store(seen + 1, SeqCst);
                    release.send(());
                }
            })
        };
        let users: Vec<_> = (0..6).map(user).collect();
        for user in users {
            user.joined().sync();
        }
        assert_eq!(count.load(SeqCst), 300);
        acquire.send(());
        assert_eq!(acquire.send_evt(()).sync_within(Duration::from_millis(2)), None);
        release.send(());
        stop.fire();
        server.join().unwrap();
    });
}

/// Events are values: they are sent through channels, kept in lists, and synced elsewhere.
#[test]
fn events_as_values() {
    within(|| {
        let offers: Channel<BoxedEvent<'static, u32>> = Channel::new();
        let channel = Channel::<u32>::new();
        let thread = spawn({
            let (offers, channel) = (offers.clone(), channel.clone());
            move || {
                offers.send(channel.clone().into_recv_evt().wrap(|value| value * 2).boxed());
                channel.send(21);
            }
        });
        assert_eq!(offers.recv().sync(), 42);
        thread.join().unwrap();
        let words = ["a".to_string(), "b".to_string()];
        let borrowed: Vec<BoxedEvent<'_, &str>> = words.iter().map(|word| always(word.as_str()).boxed()).collect();
        assert_eq!(choose(borrowed).sync(), "a");
        let receive = channel.recv_evt();
        assert_eq!(receive.clone().poll(), None);
        assert_eq!(receive.poll(), None);
    });
}

/// A value that is borrowed goes between threads of one scope.
#[test]
fn scoped() {
    within(|| {
        let text = "borrowed".to_string();
        let channel: Channel<&str> = Channel::new();
        thread::scope(|scope| {
            scope.spawn(|| channel.send(&text));
            assert_eq!(channel.recv(), "borrowed");
        });
    });
}

#[test]
fn timeouts() {
    within(|| {
        let channel = Channel::<u32>::new();
        let begun = Instant::now();
        assert_eq!(channel.recv_evt().sync_within(Duration::from_millis(30)), None);
        assert!(begun.elapsed() >= Duration::from_millis(30));
        let first = select! {
            _ = timeout(Duration::from_secs(10)) => 1,
            _ = timeout(Duration::from_millis(5)) => 2,
            value = channel.recv_evt() => value,
        };
        assert_eq!(first, 2);
        // what has passed is there at once
        assert_eq!(choose![at(begun).wrap(|()| 3), channel.recv_evt()].sync(), 3);
        let polled = select! {
            value = channel.recv_evt() => value,
            else => 7,
        };
        assert_eq!(polled, 7);
    });
}

#[test]
fn joined_by_a_panic() {
    within(|| {
        let thread = spawn(|| panic!("on purpose"));
        thread.joined().sync();
        assert!(thread.join().is_err());
    });
}

/// `return`, `break`, `continue` and `?` in the arms of a `select!` mean what they mean around it.
#[test]
fn arms_of_select() {
    fn first_odd(channel: &Channel<u32>) -> Result<u32, std::num::ParseIntError> {
        loop {
            select! {
                value = channel.recv_evt() => {
                    if value.is_multiple_of(2) {
                        continue;
                    }
                    let text = format!("{value}");
                    return Ok(text.parse::<u32>()? * 10);
                },
                _ = timeout(Duration::from_secs(50)) => break,
            }
        }
        unreachable!("a value comes");
    }
    within(|| {
        let channel = Channel::new();
        thread::scope(|scope| {
            scope.spawn(|| [2, 4, 7].map(|value| channel.send(value)));
            assert_eq!(first_odd(&channel), Ok(70));
        });
    });
}

/// More events in a choice than a row has room for.
#[test]
fn wide_choice() {
    within(|| {
        let channels: Vec<Channel<usize>> = (0..40).map(|_| Channel::new()).collect();
        for number in 0..40 {
            let channel = channels[number].clone();
            let thread = spawn(move || channel.send(number));
            let got = choose(channels.iter().map(|channel| channel.recv_evt())).sync();
            assert_eq!(got, number);
            thread.join().unwrap();
        }
        // both wide
        let others = channels.clone();
        let thread = spawn(move || {
            for _ in 0..200 {
                choose(others.iter().enumerate().map(|(number, channel)| channel.send_evt(number))).sync();
            }
        });
        let mut seen = [0; 40];
        for _ in 0..200 {
            let receive = |(number, channel): (usize, &Channel<usize>)| {
                channel.clone().into_recv_evt().wrap(move |value| (number, value))
            };
            let (number, value) = choose(channels.iter().enumerate().map(receive)).sync();
            assert_eq!(number, value);
            seen[number] += 1;
        }
        thread.join().unwrap();
        assert!(seen.iter().filter(|count| **count > 0).count() > 10, "{seen:?}");
        assert_eq!(choose(channels.iter().map(|channel| channel.recv_evt())).poll(), None);
    });
}
