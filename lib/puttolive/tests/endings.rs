//! What happens where code of a user panics, and where channels, threads and tasks go away.
#![cfg(not(schedules))]

mod common;

use common::Count;
use puttolive::*;
use std::panic::{AssertUnwindSafe, catch_unwind};
use std::sync::mpsc;
use std::thread;
use std::time::Duration;

fn within<T>(run: impl FnOnce() -> T) -> T {
    common::within(|| "an ending".into(), run)
}

fn caught<T>(run: impl FnOnce() -> T) -> thread::Result<T> {
    catch_unwind(AssertUnwindSafe(run))
}

fn panics() -> Never<()> {
    panic!("on purpose")
}

#[test]
fn a_wrap_panics() {
    let hub = Hub::audited(Config { slots: 4, rows: 2, passes: 1, spin: 0 });
    let channel: Channel<u32> = hub.channel();
    let mut told = None;
    within(|| {
        thread::scope(|scope| {
            scope.spawn(|| (0..10).for_each(|number| channel.send(number)));
            for number in 0..10 {
                let event = choose![
                    channel.recv_evt().wrap(|value| if value % 2 == 0 { panic!("even") } else { value }),
                    with_nack(|nack| {
                        told = Some(nack);
                        never()
                    }),
                ];
                let got = caught(|| event.sync());
                // the value is received, and the nack fires before the wrap function runs
                assert_eq!(got.is_err(), number % 2 == 0);
                assert!(told.take().unwrap().poll().is_some());
            }
        });
        assert_eq!(channel.recv_evt().poll(), None);
    });
}

#[test]
fn a_guard_panics() {
    let channel: Channel<String> = Channel::new();
    let mut told = None;
    let event = choose![
        channel.send_evt("kept back".to_string()),
        with_nack(|nack| {
            told = Some(nack);
            guard(panics)
        }),
    ];
    assert!(within(|| caught(|| event.sync())).is_err());
    within(|| {
        // nothing is offered, the nack has fired, and the thread goes on
        assert!(told.unwrap().poll().is_some());
        assert_eq!(channel.recv_evt().poll(), None);
        let thread = spawn({
            let channel = channel.clone();
            move || channel.recv()
        });
        channel.send("next".to_string());
        assert_eq!(thread.join().unwrap(), "next");
    });
}

#[test]
fn a_nack_function_panics() {
    let mut told = None;
    let event = with_nack(|nack| {
        told = Some(nack);
        panics()
    });
    assert!(caught(|| event.sync()).is_err());
    within(|| told.unwrap().sync());
}

#[test]
fn values_that_are_not_sent_are_dropped_once() {
    let count = Count::default();
    let (first, second) = (Channel::new(), Channel::new());
    within(|| {
        thread::scope(|scope| {
            scope.spawn(|| drop(second.recv()));
            choose![first.send_evt(count.value()), second.send_evt(count.value())].sync();
        });
        assert_eq!(count.alive(), 0);
        assert!(first.send_evt(count.value()).poll().is_none());
        assert_eq!(count.alive(), 0);
        let event = first.clone().into_send_evt(count.value());
        assert_eq!(count.alive(), 1);
        drop(event);
        assert_eq!(count.alive(), 0);
    });
}

/// A value that syncs when it is dropped.
#[test]
fn a_drop_syncs() {
    struct Syncs(Channel<u32>);
    impl Drop for Syncs {
        fn drop(&mut self) {
            assert_eq!(self.0.recv_evt().poll(), None);
        }
    }
    let (channel, other) = (Channel::new(), Channel::new());
    within(|| assert!(channel.send_evt(Syncs(other)).poll().is_none()));
}

#[test]
fn a_value_that_is_not_sent_comes_back() {
    let channel: Channel<String> = Channel::new();
    let mut value = Some("kept".to_string());
    within(|| {
        assert!(channel.send_from(&mut value).poll().is_none());
        assert!(channel.send_from(&mut value).sync_within(Duration::from_millis(1)).is_none());
        assert_eq!(value.as_deref(), Some("kept"));
        assert!(caught(|| choose![channel.send_from(&mut value), guard(panics)].sync()).is_err());
        assert_eq!(value.as_deref(), Some("kept"));
        thread::scope(|scope| {
            scope.spawn(|| assert_eq!(channel.recv(), "kept"));
            choose![channel.send_from(&mut value), never()].sync();
        });
        assert_eq!(value, None);
    });
}

/// Whoever waits keeps the channel, and nobody else can reach it: a signal ends the wait.
#[test]
fn a_channel_is_dropped_while_another_waits() {
    let stop = Signal::new();
    let channel: Channel<u32> = Channel::new();
    within(|| {
        let thread = spawn({
            let (channel, stop) = (channel.clone(), stop.clone());
            move || choose![channel.into_recv_evt().wrap(Some), stop.evt().wrap(|()| None)].sync()
        });
        thread::sleep(Duration::from_millis(5));
        drop(channel);
        // its number is not used by others meanwhile
        let others: Vec<Channel<u32>> = (0..400).map(|_| Channel::new()).collect();
        for other in &others {
            assert!(other.send_evt(1).poll().is_none());
        }
        stop.fire();
        assert_eq!(thread.join().unwrap(), None);
    });
}

#[test]
fn numbers_are_used_again() {
    let hub = Hub::with(Config { slots: 8, rows: 16, passes: 2, spin: 0 });
    within(|| {
        for number in 0..2000_u32 {
            let channel = hub.channel();
            if !number.is_multiple_of(10) {
                assert!(channel.recv_evt().poll().is_none());
                continue;
            }
            thread::scope(|scope| {
                scope.spawn(|| channel.send(number));
                assert_eq!(channel.recv(), number);
            });
        }
        let many: Vec<Channel<u32>> = (0..1000).map(|_| hub.channel()).collect();
        thread::scope(|scope| {
            scope.spawn(|| (0..).zip(&many).for_each(|(number, channel)| channel.send(number)));
            for (number, channel) in (0..).zip(&many) {
                assert_eq!(channel.recv(), number);
            }
        });
    });
}

/// A row takes as many numbers as it needs, or none: those that it found where it needs more are lent to others.
#[test]
fn numbers_are_lent_all_or_none() {
    let hub = Hub::audited(Config::default());
    let _kept: Vec<Channel<u32>> = (0..192).map(|_| hub.channel()).collect();
    let group = |width: usize| (0..width).map(|_| hub.channel()).collect::<Vec<Channel<u32>>>();
    let any = |channels: &[Channel<u32>]| choose(channels.to_vec().into_iter().map(Channel::into_recv_evt));
    within(|| {
        let mut polled = Vec::new();
        for _ in 0..40 {
            // 60 of 63 numbers are in use
            let stop = Signal::new();
            thread::scope(|scope| {
                for width in [7, 7, 7, 7, 7, 7, 7, 7, 4] {
                    let (channels, stop) = (group(width), &stop);
                    scope.spawn(move || choose![any(&channels).wrap(drop), stop.evt()].sync());
                }
                thread::sleep(Duration::from_millis(5));
                polled.push(group(7));
                assert_eq!(any(&polled[polled.len() - 1]).poll(), None);
                stop.fire();
            });
        }
    });
}

#[test]
fn threads_that_end_leave_nothing() {
    let hub = Hub::audited(Config { slots: 6, rows: 4, passes: 2, spin: 10 });
    let channel: Channel<u32> = hub.channel();
    within(|| {
        for number in 0..300 {
            let (ours, theirs) = (channel.clone(), channel.clone());
            let sender = spawn(move || ours.send(number));
            let receiver = spawn(move || theirs.recv());
            assert_eq!(receiver.join().unwrap(), number);
            sender.join().unwrap();
        }
    });
}

#[test]
#[should_panic(expected = "two hubs")]
fn two_hubs() {
    let hub = Hub::with(Config::default());
    let (ours, theirs): (Channel<u32>, Channel<u32>) = (hub.channel(), Channel::new());
    choose![ours.recv_evt(), theirs.recv_evt()].sync();
}

#[test]
fn measures_out_of_range() {
    let usual = Config::default();
    for config in [
        Config { slots: 1, ..usual },
        Config { slots: 65, ..usual },
        Config { rows: 0, ..usual },
        Config { rows: 1025, ..usual },
        Config { passes: 0, ..usual },
        Config { passes: 17, ..usual },
    ] {
        assert!(caught(|| Hub::with(config)).is_err(), "{config:?}");
    }
    Hub::with(Config { slots: 2, rows: 1, passes: 1, spin: 0 });
    Hub::with(Config { slots: 64, rows: 1024, passes: 16, spin: 0 });
}

/// A nack that many threads wait for, some in a table and some not.
#[test]
fn many_wait_for_one_nack() {
    let hub = Hub::audited(Config { slots: 8, rows: 4, passes: 4, spin: 10 });
    within(|| {
        for round in 0..50 {
            let (give, take) = mpsc::channel();
            let (go, never_comes): (Channel<()>, Channel<()>) = (hub.channel(), hub.channel());
            thread::scope(|scope| {
                let client = scope.spawn(|| {
                    choose![
                        go.recv_evt().wrap(|()| "go"),
                        with_nack(|nack| {
                            give.send(nack).unwrap();
                            never_comes.recv_evt().wrap(|()| "never")
                        })
                    ]
                    .sync()
                });
                let nack: Nack = take.recv().unwrap();
                for number in 0..12 {
                    let (nack, idle) = (nack.clone(), hub.channel::<()>());
                    scope.spawn(move || match number % 3 {
                        0 => nack.sync(),
                        1 => choose![nack, idle.recv_evt()].sync(),
                        _ => {
                            select! {
                                _ = timeout(Duration::from_secs(50)) => panic!("late"),
                                _ = idle.send_evt(()) => panic!("sent"),
                                _ = nack => {}
                            }
                        }
                    });
                }
                if round % 2 == 0 {
                    thread::sleep(Duration::from_micros(300));
                }
                assert!(nack.clone().poll().is_none());
                go.send(());
                assert_eq!(client.join().unwrap(), "go");
                assert!(nack.poll().is_some());
            });
        }
    });
}
