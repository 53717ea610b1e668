//! A channel with a buffer, made of channels without one: a thread between them holds what was sent and not yet received.
use puttolive::*;
use std::collections::VecDeque;

/// Takes values from one side and gives them to the other, and holds `room` at most, until all senders are gone.
fn hold<T: Send>(from: Receiver<T>, to: Sender<T>, room: usize) {
    let mut held = VecDeque::new();
    let mut is_open = true;
    while is_open || !held.is_empty() {
        let mut first = held.pop_front();
        let takes = is_open && held.len() + usize::from(first.is_some()) < room;
        let came = choose(takes.then(|| from.recv_evt())).either(give(&to, &mut first)).sync();
        // what was not given is the first again
        if let Some(value) = first {
            held.push_front(value);
        }
        match came {
            Either::Left(Ok(value)) => held.push_back(value),
            Either::Left(Err(_)) => is_open = false,
            Either::Right(false) => return,
            Either::Right(true) => {}
        }
    }
}

/// An event: the value that lies there is given, or nobody takes values any more. It never comes where none lies there.
fn give<'a, T: Send>(to: &'a Sender<T>, first: &'a mut Option<T>) -> impl Event<Output = bool> + 'a {
    let closed = choose(first.is_some().then(|| to.closed())).wrap(|()| false);
    let given = choose(first.is_some().then(|| to.send_from(first))).wrap(|()| true);
    given.or(closed)
}

/// A channel that holds so many values.
fn buffered<T: Send + 'static>(room: usize) -> (Sender<T>, Receiver<T>) {
    let ((to_buffer, from), (to, from_buffer)) = (channel(), channel());
    spawn(move || hold(from, to, room));
    (to_buffer, from_buffer)
}

fn main() {
    let (sender, receiver) = buffered(10);
    (0..10).for_each(|n| sender.send(n).expect("the buffer has room"));
    drop(sender);
    println!("{:?}", receiver.iter().collect::<Vec<_>>());
}

#[test]
fn what_was_sent_is_received_in_order() {
    let (sender, receiver) = buffered(10);
    let sent = spawn(move || (0..1000).for_each(|n| sender.send(n).unwrap()));
    assert!(receiver.iter().eq(0..1000));
    sent.join().unwrap();
}

#[test]
fn it_holds_so_many() {
    let (sender, _receiver) = buffered(3);
    let soon = std::time::Duration::from_millis(20);
    (0..3).for_each(|n| sender.send(n).unwrap());
    assert_eq!(sender.send_timeout(3, soon), Err(SendTimeoutError::Timeout(3)));
}

#[test]
fn it_ends_with_its_receiver() {
    let (sender, receiver) = buffered(3);
    sender.send(1).unwrap();
    drop(receiver);
    while sender.send(2).is_ok() {}
}
