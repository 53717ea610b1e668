//! A swap channel: two threads exchange values. Each offers both sides at once, and neither is the first.
use puttolive::*;

/// A value, and where its sender waits for the other one.
type Half<T> = (T, Channel<T>);

#[derive(Clone)]
struct Swap<T> {
    channel: Channel<Half<T>>,
}

impl<T: Send + Clone> Swap<T> {
    fn new() -> Swap<T> {
        Swap { channel: Channel::new() }
    }

    /// An event: the other thread's value, for this one.
    fn swap(&self, mine: T) -> impl Event<Output = T> {
        guard(move || {
            let (back, own) = (Channel::new(), mine.clone());
            let asked = self.channel.recv_evt().wrap(|(theirs, back)| {
                back.send(own);
                theirs
            });
            let answered = self.channel.send_evt((mine, back.clone())).wrap(move |()| back.recv());
            choose![asked, answered]
        })
    }
}

/// Two threads swap so many values: the sum that each gets.
fn run(rounds: u64) -> (u64, u64) {
    let swap = Swap::new();
    let other = spawn({
        let swap = swap.clone();
        move || (0..rounds).map(|n| swap.swap(n).sync()).sum()
    });
    let sum = (0..rounds).map(|n| swap.swap(n + rounds).sync()).sum();
    (sum, other.join().expect("no panic"))
}

fn main() {
    println!("{:?}", run(1000));
}

#[test]
fn each_gets_the_values_of_the_other() {
    assert_eq!(run(1000), ((0..1000).sum(), (1000..2000).sum()));
}
