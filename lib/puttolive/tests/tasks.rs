//! Events of tasks: more of them than slots, and such that are given up.
#![cfg(not(schedules))]

mod common;

use common::Pool;
use puttolive::*;
use std::pin::Pin;
use std::sync::Arc;
use std::sync::atomic::{AtomicU32, AtomicU64, Ordering::SeqCst};
use std::task::{Context, Poll};
use std::time::{Duration, Instant};

fn run(pool: Pool, threads: usize) {
    common::within(|| "tasks".into(), || pool.run(threads));
}

fn small() -> Hub {
    Hub::audited(Config { slots: 16, rows: 16, passes: 8, spin: 0 })
}

/// Two channels, for two sides.
fn two(hub: &Hub) -> [(Channel<u64>, Channel<u64>); 2] {
    let channels = (hub.channel(), hub.channel());
    [channels.clone(), channels]
}

#[test]
fn two_tasks() {
    let pool = Pool::default();
    let channel: Channel<String> = Channel::new();
    let other = channel.clone();
    pool.spawn(async move { channel.send_evt("hello".into()).wait().await });
    pool.spawn(async move { assert_eq!(other.recv_evt().wait().await, "hello") });
    run(pool, 2);
}

/// What is awaited may be sent to another thread.
#[test]
fn futures_are_send() {
    fn is_send<T: Send>(_: &T) {}
    let channel: Channel<u32> = Channel::new();
    let (sender, receiver) = puttolive::channel::<u32>();
    is_send(&channel.recv_evt().wait());
    is_send(&channel.send_evt(1).wait());
    is_send(&sender.send_evt(1).wait());
    is_send(&choose![receiver.recv_evt().wrap(drop), timeout(Duration::ZERO), Signal::new().evt()].wait());
    is_send(&channel.recv_evt().boxed().wait());
}

#[test]
fn many_pairs() {
    for (pairs, each, hub) in [(2000, 5, small()), (300, 20, Hub::audited(Config::default()))] {
        let pool = Pool::default();
        let sum = Arc::new(AtomicU64::new(0));
        for pair in 0..pairs {
            let [ours, theirs] = two(&hub);
            let sum = sum.clone();
            pool.spawn(async move {
                for number in 0..each {
                    ours.0.send_evt(number).wait().await;
                    assert_eq!(ours.1.recv_evt().wait().await, number + 1);
                }
            });
            pool.spawn(async move {
                for _ in 0..each {
                    let number = theirs.0.recv_evt().wait().await;
                    sum.fetch_add(number, SeqCst);
                    match pair % 2 {
                        0 => theirs.1.send_evt(number + 1).wait().await,
                        _ => theirs.1.send(number + 1),
                    }
                }
            });
        }
        // a blocking send in a task is no good habit: with as many threads as may block it still goes on
        run(pool, 4 + if pairs < 1000 { pairs } else { pairs / 2 });
        assert_eq!(sum.load(SeqCst), pairs as u64 * each * (each - 1) / 2);
        println!("{:?}", hub.stats());
    }
}

/// One thread runs all tasks: who is committed gives its row back before its task is run again.
#[test]
fn one_thread_and_many_tasks() {
    for (pairs, hub) in [(300, Hub::audited(Config::default())), (100, small())] {
        let pool = Pool::default();
        for _ in 0..pairs {
            let [ours, theirs] = two(&hub);
            pool.spawn(async move {
                for number in 0..20 {
                    ours.0.send_evt(number).wait().await;
                    assert_eq!(ours.1.recv_evt().wait().await, number + 1);
                }
            });
            pool.spawn(async move {
                for _ in 0..20 {
                    let number = theirs.0.recv_evt().wait().await;
                    theirs.1.send_evt(number + 1).wait().await;
                }
            });
        }
        run(pool, 1);
        println!("{:?}", hub.stats());
    }
}

#[test]
fn choices_and_deadlines() {
    let pool = Pool::default();
    let hub = small();
    let late = Arc::new(AtomicU32::new(0));
    for number in 0..200 {
        let (channel, late): (Channel<u32>, _) = (hub.channel(), late.clone());
        pool.spawn(async move {
            let begun = Instant::now();
            let time = Duration::from_millis(5 + number % 20);
            let event = choose![channel.recv_evt().wrap(Some), timeout(time).wrap(|()| None)];
            assert_eq!(event.wait().await, None);
            assert!(begun.elapsed() >= time);
            late.fetch_add(1, SeqCst);
        });
    }
    run(pool, 3);
    assert_eq!(late.load(SeqCst), 200);
}

/// A future that is polled once.
struct Once<F>(Option<F>);

impl<F: Future + Unpin> Future for Once<F> {
    type Output = Option<F::Output>;

    fn poll(mut self: Pin<&mut Self>, context: &mut Context<'_>) -> Poll<Self::Output> {
        let mut future = self.0.take().unwrap();
        match Pin::new(&mut future).poll(context) {
            Poll::Ready(output) => Poll::Ready(Some(output)),
            Poll::Pending => Poll::Ready(None),
        }
    }
}

/// A future that is dropped takes part in nothing, and its nacks fire.
#[test]
fn dropped_futures() {
    let hub = small();
    let pool = Pool::default();
    let channel: Channel<u32> = hub.channel();
    let sent = Arc::new(AtomicU32::new(0));
    let received = Arc::new(AtomicU32::new(0));
    let over = Signal::new();
    let ended = Arc::new(AtomicU32::new(0));
    for _ in 0..20 {
        let (channel, sent, over, ended) = (channel.clone(), sent.clone(), over.clone(), ended.clone());
        pool.spawn(async move {
            for _ in 0..200 {
                let mut told = None;
                let event = with_nack(|nack| {
                    told = Some(nack);
                    channel.send_evt(1)
                });
                let done = Once(Some(event.wait())).await;
                let is_given_up = told.take().unwrap().poll().is_some();
                assert!(!(is_given_up && done.is_some()));
                // it may have been committed before it was dropped
                if !is_given_up {
                    sent.fetch_add(1, SeqCst);
                }
            }
            if ended.fetch_add(1, SeqCst) == 19 {
                over.fire();
            }
        });
    }
    for _ in 0..3 {
        let (channel, received, over) = (channel.clone(), received.clone(), over.clone());
        pool.spawn(async move {
            let event = || choose![channel.recv_evt().wrap(Some), over.evt().wrap(|()| None)];
            while let Some(number) = event().wait().await {
                received.fetch_add(number, SeqCst);
            }
        });
    }
    run(pool, 4);
    assert_eq!(received.load(SeqCst), sent.load(SeqCst));
    println!("{received:?} {sent:?} {:?}", hub.stats());
}

/// Halves in tasks: who waits is told of the close.
#[test]
fn halves() {
    let pool = Pool::default();
    let (sender, receiver) = small().halves();
    let sum = Arc::new(AtomicU64::new(0));
    for first in 0..50 {
        let sender = sender.clone();
        pool.spawn(async move {
            for number in first * 10..first * 10 + 10 {
                sender.send_evt(number).wait().await.unwrap();
            }
        });
    }
    drop(sender);
    for _ in 0..5 {
        let (receiver, sum) = (receiver.clone(), sum.clone());
        pool.spawn(async move {
            while let Ok(number) = receiver.recv_evt().wait().await {
                sum.fetch_add(number, SeqCst);
            }
        });
    }
    drop(receiver);
    run(pool, 3);
    assert_eq!(sum.load(SeqCst), (0..500).sum());
}
