//! Channels without a buffer, of three libraries.
use puttolive::{Channel, Event, choose};
use std::sync::mpsc;

pub trait Kind: 'static {
    type Sender: Clone + Send + 'static;
    type Receiver: Send + 'static;
    /// Whether it has choices.
    const CHOOSES: bool;
    fn channel() -> (Self::Sender, Self::Receiver);
    fn send(to: &Self::Sender, value: u64);
    fn recv(from: &Self::Receiver) -> u64;
    /// Receives from the first of four, or of eight, of which somebody sends.
    fn recv_any(from: &[Self::Receiver]) -> u64;
}

pub struct Ours;

impl Kind for Ours {
    type Sender = Channel<u64>;
    type Receiver = Channel<u64>;
    const CHOOSES: bool = true;

    fn channel() -> (Channel<u64>, Channel<u64>) {
        let channel = Channel::new();
        (channel.clone(), channel)
    }

    fn send(to: &Channel<u64>, value: u64) {
        to.send(value)
    }

    fn recv(from: &Channel<u64>) -> u64 {
        from.recv()
    }

    fn recv_any(from: &[Channel<u64>]) -> u64 {
        match from {
            [a, b, c, d] => choose![a.recv_evt(), b.recv_evt(), c.recv_evt(), d.recv_evt()].sync(),
            [a, b, c, d, e, f, g, h] => {
                let first = choose![a.recv_evt(), b.recv_evt(), c.recv_evt(), d.recv_evt()];
                let second = choose![e.recv_evt(), f.recv_evt(), g.recv_evt(), h.recv_evt()];
                first.or(second).sync()
            }
            _ => unreachable!("four or eight"),
        }
    }
}

pub struct Std;

impl Kind for Std {
    type Sender = mpsc::SyncSender<u64>;
    type Receiver = mpsc::Receiver<u64>;
    const CHOOSES: bool = false;

    fn channel() -> (Self::Sender, Self::Receiver) {
        mpsc::sync_channel(0)
    }

    fn send(to: &Self::Sender, value: u64) {
        to.send(value).expect("the receiver waits")
    }

    fn recv(from: &Self::Receiver) -> u64 {
        from.recv().expect("the sender sends")
    }

    fn recv_any(_: &[Self::Receiver]) -> u64 {
        unreachable!("it has no choices")
    }
}

pub struct Crossbeam;

impl Kind for Crossbeam {
    type Sender = crossbeam_channel::Sender<u64>;
    type Receiver = crossbeam_channel::Receiver<u64>;
    const CHOOSES: bool = true;

    fn channel() -> (Self::Sender, Self::Receiver) {
        crossbeam_channel::bounded(0)
    }

    fn send(to: &Self::Sender, value: u64) {
        to.send(value).expect("the receiver waits")
    }

    fn recv(from: &Self::Receiver) -> u64 {
        from.recv().expect("the sender sends")
    }

    fn recv_any(from: &[Self::Receiver]) -> u64 {
        match from {
            [a, b, c, d] => crossbeam_channel::select! {
                recv(a) -> value => value, recv(b) -> value => value,
                recv(c) -> value => value, recv(d) -> value => value,
            },
            [a, b, c, d, e, f, g, h] => crossbeam_channel::select! {
                recv(a) -> value => value, recv(b) -> value => value,
                recv(c) -> value => value, recv(d) -> value => value,
                recv(e) -> value => value, recv(f) -> value => value,
                recv(g) -> value => value, recv(h) -> value => value,
            },
            _ => unreachable!("four or eight"),
        }
        .unwrap_or_default()
    }
}
