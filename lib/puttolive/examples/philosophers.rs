//! Dining philosophers, with forks that are channels: a fork is a thread that gives itself out, and waits to come back. Whoever
//! has one fork and cannot get the other in time puts it back: nobody starves while others eat for ever.
use puttolive::*;
use std::time::Duration;

#[derive(Clone)]
struct Fork {
    take: Channel<()>,
    put: Channel<()>,
}

impl Fork {
    /// A fork on the table, until the end.
    fn lay(end: &Signal) -> Fork {
        let fork = Fork { take: Channel::new(), put: Channel::new() };
        let (own, end) = (fork.clone(), end.clone());
        spawn(move || {
            let lies = || select! { _ = own.take.send_evt(()) => true, _ = end.evt() => false };
            while lies() {
                own.put.recv();
            }
        });
        fork
    }
}

/// Eats so often, and tells how often a fork was put back.
fn dine(left: &Fork, right: &Fork, meals: u32) -> u32 {
    let (mut eaten, mut put_back) = (0, 0);
    while eaten < meals {
        // whichever fork comes first
        let (first, second) =
            choose![left.take.recv_evt().wrap(|()| (left, right)), right.take.recv_evt().wrap(|()| (right, left)),]
                .sync();
        if second.take.recv_evt().sync_within(Duration::from_micros(200)).is_some() {
            eaten += 1;
            second.put.send(());
        } else {
            put_back += 1;
        }
        first.put.send(());
    }
    put_back
}

/// So many philosophers, each of whom eats so often: how often forks were put back.
fn run(philosophers: usize, meals: u32) -> u32 {
    let end = Signal::new();
    let forks: Vec<Fork> = (0..philosophers).map(|_| Fork::lay(&end)).collect();
    let seats = (0..philosophers).map(|seat| (forks[seat].clone(), forks[(seat + 1) % philosophers].clone()));
    let diners: Vec<_> = seats.map(|(left, right)| spawn(move || dine(&left, &right, meals))).collect();
    let put_back = diners.into_iter().map(|diner| diner.join().expect("no panic")).sum();
    end.fire();
    put_back
}

fn main() {
    println!("all have eaten 20 times; forks were put back {} times", run(5, 20));
}

#[test]
fn all_eat() {
    run(5, 20);
    run(2, 50);
}
