//! Multicast: each port gets each value, at its own pace. A port is a thread that passes values on to its reader, and to the
//! next port.
use puttolive::*;

struct Multicast<T> {
    first: Sender<T>,
    /// Where the last port passes values on to: the next port takes them from there.
    last: Receiver<T>,
}

impl<T: Send + Clone + 'static> Multicast<T> {
    fn new() -> Multicast<T> {
        let (first, last) = channel();
        Multicast { first, last }
    }

    /// A further reader, of what is sent from now on.
    fn port(&mut self) -> Receiver<T> {
        let (to_reader, port) = channel::<T>();
        let (to_next, last) = channel();
        let from = std::mem::replace(&mut self.last, last);
        spawn(move || {
            for value in from {
                // a reader that has gone is passed by
                let _ = to_reader.send(value.clone());
                let _ = to_next.send(value);
            }
        });
        port
    }

    /// No further reader: what sends to all of them.
    fn sender(self) -> Sender<T> {
        let last = self.last;
        spawn(move || last.into_iter().for_each(drop));
        self.first
    }
}

/// So many readers of so many values: what each has read.
fn run(readers: usize, values: u32) -> Vec<Vec<u32>> {
    let mut multicast = Multicast::new();
    let ports: Vec<_> = (0..readers).map(|_| multicast.port()).collect();
    let read: Vec<_> = ports.into_iter().map(|port| spawn(move || port.into_iter().collect())).collect();
    let sender = multicast.sender();
    (0..values).for_each(|value| sender.send(value).expect("there is a reader"));
    drop(sender);
    read.into_iter().map(|reader| reader.join().expect("no panic")).collect()
}

fn main() {
    for (number, read) in run(3, 5).iter().enumerate() {
        println!("reader {number}: {read:?}");
    }
}

#[test]
fn each_reader_gets_each_value() {
    assert_eq!(run(5, 200), vec![(0..200).collect::<Vec<_>>(); 5]);
}
