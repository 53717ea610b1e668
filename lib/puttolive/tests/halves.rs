//! Channels of two halves: each refusal, closes while others wait, iterators, and values that come back.
#![cfg(not(schedules))]

mod common;

use common::Count;
use puttolive::*;
use std::thread;
use std::time::{Duration, Instant};

const SOON: Duration = Duration::from_millis(2);
const LATE: Duration = Duration::from_secs(50);

fn within<T>(run: impl FnOnce() -> T) -> T {
    common::within(|| "halves".into(), run)
}

/// Something that is neither `Debug` nor `Clone` nor `PartialEq`.
struct Plain(u32);

#[test]
fn nobody_is_there() {
    let (sender, receiver) = channel();
    assert!(matches!(sender.try_send(1), Err(TrySendError::Full(1))));
    assert!(matches!(sender.send_timeout(1, SOON), Err(SendTimeoutError::Timeout(1))));
    assert_eq!(receiver.try_recv(), Err(TryRecvError::Empty));
    let begun = Instant::now();
    assert_eq!(receiver.recv_timeout(SOON), Err(RecvTimeoutError::Timeout));
    assert!(begun.elapsed() >= SOON);
    assert!(receiver.recv_evt().poll().is_none());
    assert!(sender.send_evt(1).poll().is_none());
    assert_eq!(receiver.try_iter().count(), 0);
}

#[test]
fn all_receivers_are_gone() {
    let (sender, receiver) = channel();
    drop((receiver.clone(), receiver));
    assert_eq!(sender.send(1), Err(SendError(1)));
    assert!(matches!(sender.try_send(2), Err(TrySendError::Disconnected(2))));
    assert!(matches!(sender.send_timeout(3, LATE), Err(SendTimeoutError::Disconnected(3))));
    assert_eq!(sender.send_evt(4).sync(), Err(SendError(4)));
    assert_eq!(sender.clone().send_evt(5).poll(), Some(Err(SendError(5))));
}

#[test]
fn all_senders_are_gone() {
    let (sender, receiver) = channel::<u32>();
    drop((sender.clone(), sender));
    assert_eq!(receiver.recv(), Err(RecvError));
    assert_eq!(receiver.try_recv(), Err(TryRecvError::Disconnected));
    assert_eq!(receiver.recv_timeout(LATE), Err(RecvTimeoutError::Disconnected));
    assert_eq!(receiver.recv_evt().sync(), Err(RecvError));
    assert_eq!(receiver.clone().recv_evt().poll(), Some(Err(RecvError)));
    assert_eq!((receiver.iter().count(), receiver.try_iter().count()), (0, 0));
    assert_eq!((&receiver).into_iter().count(), 0);
    assert_eq!(receiver.into_iter().count(), 0);
}

/// A clone of a half keeps it open.
#[test]
fn clones() {
    let (sender, receiver) = channel();
    let (other_sender, other_receiver) = (sender.clone(), receiver.clone());
    drop((sender, receiver));
    within(|| {
        thread::scope(|scope| {
            scope.spawn(|| assert_eq!(other_sender.send(1), Ok(())));
            assert_eq!(other_receiver.recv(), Ok(1));
        });
    });
    assert_eq!(other_receiver.try_recv(), Err(TryRecvError::Empty));
    drop(other_sender);
    assert_eq!(other_receiver.try_recv(), Err(TryRecvError::Disconnected));
}

/// An event that keeps a half keeps it open.
#[test]
fn events_keep_halves() {
    let (sender, receiver) = channel();
    let sends = sender.into_send_evt(1);
    assert_eq!(receiver.try_recv(), Err(TryRecvError::Empty));
    let receives = receiver.into_recv_evt();
    within(|| {
        let thread = spawn(move || sends.sync());
        assert_eq!(receives.sync(), Ok(1));
        assert_eq!(thread.join().unwrap(), Ok(()));
    });
}

/// The values of a send that is refused are those that were to be sent, whatever their type.
#[test]
fn values_come_back() {
    let (sender, receiver) = channel();
    assert_eq!(sender.try_send(Plain(1)).map_err(back).unwrap_err().0, 1);
    drop(receiver);
    assert_eq!(sender.send(Plain(2)).unwrap_err().0.0, 2);
    assert_eq!(sender.try_send(Plain(3)).map_err(back).unwrap_err().0, 3);
    let refused = sender.send_timeout(Plain(4), SOON);
    assert_eq!(format!("{refused:?}"), "Err(Disconnected(..))");
    assert!(matches!(refused, Err(SendTimeoutError::Disconnected(Plain(4)))));
}

fn back(error: TrySendError<Plain>) -> Plain {
    match error {
        TrySendError::Full(value) | TrySendError::Disconnected(value) => value,
    }
}

/// No value is lost where sends are refused, chosen against, or dropped.
#[test]
fn values_are_counted() {
    let count = Count::default();
    let (sender, receiver) = channel();
    let other = Channel::<u32>::new();
    assert!(sender.try_send(count.value()).is_err());
    assert_eq!(count.alive(), 0);
    let chosen = choose![sender.send_evt(count.value()).wrap(|_| 0), other.recv_evt(), always(1)].sync();
    assert_eq!((chosen, count.alive()), (1, 0));
    drop(sender.send_evt(count.value()));
    assert_eq!(count.alive(), 0);
    drop(receiver);
    let refused = sender.send(count.value());
    assert_eq!(count.alive(), 1);
    drop(refused);
    assert_eq!(count.alive(), 0);
}

/// A usual hub, and one in which few have room.
fn hubs() -> [Hub; 2] {
    [Hub::with(Config::default()), Hub::audited(Config { slots: 2, rows: 2, passes: 1, spin: 0 })]
}

/// All wait in one hub, each in its own form, when the senders go.
#[test]
fn receivers_are_told_of_a_close() {
    type Waits = fn(&Hub, &Receiver<u32>) -> bool;
    let forms: [Waits; 7] = [
        |_, receiver| receiver.recv().is_err(),
        |_, receiver| receiver.recv_timeout(LATE) == Err(RecvTimeoutError::Disconnected),
        |_, receiver| receiver.recv_evt().sync().is_err(),
        |_, receiver| receiver.recv_evt().sync_within(LATE).unwrap().is_err(),
        |_, receiver| receiver.iter().next().is_none(),
        |hub, receiver| {
            let others: Vec<Channel<u32>> = (0..20).map(|_| hub.channel()).collect();
            let others = choose(others.iter().map(|other| other.recv_evt())).wrap(Ok);
            choose![others, receiver.recv_evt()].sync().is_err()
        },
        |hub, receiver| {
            let other = hub.halves::<u32>();
            select! {
                got = other.1.recv_evt() => got.is_ok(),
                got = receiver.recv_evt() => got.is_err(),
            }
        },
    ];
    within(|| {
        for hub in hubs() {
            let (sender, receiver) = hub.halves();
            thread::scope(|scope| {
                for form in forms {
                    let (hub, receiver) = (&hub, receiver.clone());
                    scope.spawn(move || assert!(form(hub, &receiver)));
                }
                thread::sleep(SOON);
                drop(sender);
            });
        }
    });
}

/// All wait in one hub, each in its own form, when the receivers go.
#[test]
fn senders_are_told_of_a_close() {
    type Waits = fn(&Hub, &Sender<u32>) -> Option<u32>;
    let forms: [Waits; 5] = [
        |_, sender| sender.send(1).err().map(|error| error.0),
        |_, sender| match sender.send_timeout(1, LATE) {
            Err(SendTimeoutError::Disconnected(value)) => Some(value),
            _ => None,
        },
        |_, sender| sender.send_evt(1).sync().err().map(|error| error.0),
        |_, sender| choose![never(), sender.send_evt(1), never()].sync_within(LATE)?.err().map(|error| error.0),
        |hub, sender| {
            let others: Vec<Channel<u32>> = (0..20).map(|_| hub.channel()).collect();
            let others = choose(others.iter().map(|other| other.recv_evt())).wrap(|_| Ok(()));
            choose![sender.send_evt(1), others].sync().err().map(|error| error.0)
        },
    ];
    within(|| {
        for hub in hubs() {
            let (sender, receiver) = hub.halves();
            thread::scope(|scope| {
                for form in forms {
                    let (hub, sender) = (&hub, sender.clone());
                    scope.spawn(move || assert_eq!(form(hub, &sender), Some(1)));
                }
                thread::sleep(SOON);
                drop(receiver);
            });
        }
    });
}

/// The event of a close alone, on both sides.
#[test]
fn closed() {
    let (sender, receiver) = channel::<u32>();
    assert!(sender.closed().poll().is_none());
    assert!(receiver.closed().poll().is_none());
    within(|| {
        thread::scope(|scope| {
            scope.spawn(|| sender.closed().sync());
            thread::sleep(SOON);
            drop(receiver);
        });
    });
    assert!(sender.closed().poll().is_some());
    let (sender, receiver) = channel::<u32>();
    drop(sender);
    assert!(receiver.closed().poll().is_some());
}

#[test]
fn iterators() {
    within(|| {
        let (sender, receiver) = channel();
        thread::scope(|scope| {
            scope.spawn(move || (0..10).try_for_each(|number| sender.send(number)).unwrap());
            assert_eq!(receiver.iter().take(3).collect::<Vec<_>>(), [0, 1, 2]);
            let mut sum = 0;
            for number in &receiver {
                sum += number;
                if number == 5 {
                    break;
                }
            }
            assert_eq!(sum, 3 + 4 + 5);
            while receiver.try_iter().next() != Some(6) {
                thread::yield_now();
            }
            assert_eq!(receiver.into_iter().collect::<Vec<_>>(), [7, 8, 9]);
        });
    });
}

/// Receivers share what is sent, and each value goes to one of them.
#[test]
fn many_on_both_sides() {
    let (sender, receiver) = Hub::audited(Config { slots: 6, rows: 4, passes: 4, spin: 10 }).halves();
    let mut received = within(|| {
        thread::scope(|scope| {
            for first in 0..5 {
                let sender = sender.clone();
                scope.spawn(move || (0..100).try_for_each(|number| sender.send(first * 100 + number)).unwrap());
            }
            drop(sender);
            let collect = |_| {
                let receiver = receiver.clone();
                scope.spawn(move || receiver.into_iter().collect::<Vec<_>>())
            };
            let threads: Vec<_> = (0..3).map(collect).collect();
            threads.into_iter().flat_map(|thread| thread.join().unwrap()).collect::<Vec<_>>()
        })
    });
    received.sort();
    assert_eq!(received, (0..500).collect::<Vec<_>>());
}

/// Threads that send while the receivers go, one after another: each value is received or comes back.
#[test]
fn a_close_in_the_middle() {
    within(|| {
        for _ in 0..200 {
            let count = Count::default();
            let (sender, receiver) = channel();
            let (sent, received) = thread::scope(|scope| {
                let sends = |_| {
                    let (sender, count) = (sender.clone(), count.clone());
                    scope.spawn(move || (0..).take_while(|_| sender.send(count.value()).is_ok()).count())
                };
                let senders: Vec<_> = (0..3).map(sends).collect();
                let receives = |limit| {
                    let receiver = receiver.clone();
                    scope.spawn(move || receiver.iter().take(limit).count())
                };
                let receivers: Vec<_> = (3..6).map(receives).collect();
                drop(receiver);
                let sum = |threads: Vec<thread::ScopedJoinHandle<'_, usize>>| {
                    threads.into_iter().map(|thread| thread.join().unwrap()).sum::<usize>()
                };
                (sum(senders), sum(receivers))
            });
            assert_eq!((sent, received, count.alive()), (12, 12, 0));
        }
    });
}
