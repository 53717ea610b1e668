//! A barrier that one may leave: all go on when the last has come, or whoever waits takes something else.
use puttolive::*;
use std::time::Duration;

/// Who has come, and whether he has gone again.
struct Arrival {
    pass: Channel<u64>,
    gone: Nack,
}

#[derive(Clone)]
struct Barrier {
    arrivals: Sender<Arrival>,
}

impl Barrier {
    /// A barrier for so many threads.
    fn new(size: usize) -> Barrier {
        let (arrivals, inbox) = channel();
        spawn(move || Barrier::serve(size, inbox));
        Barrier { arrivals }
    }

    /// An event: all have come, for the time that it tells.
    fn wait(&self) -> impl Event<Output = u64> {
        with_nack(move |gone| {
            let pass = Channel::new();
            self.arrivals.send(Arrival { pass: pass.clone(), gone }).expect("the server is there");
            pass.into_recv_evt()
        })
    }

    fn serve(size: usize, inbox: Receiver<Arrival>) {
        let mut waiting: Vec<Arrival> = Vec::new();
        let mut times = 0;
        loop {
            let gone = choose(waiting.iter().enumerate().map(|(at, arrival)| arrival.gone.clone().wrap(move |()| at)));
            match inbox.recv_evt().either(gone).sync() {
                Either::Left(Ok(arrival)) => waiting.push(arrival),
                Either::Left(Err(_)) => return,
                Either::Right(at) => drop(waiting.swap_remove(at)),
            }
            if waiting.len() == size {
                // whoever goes at this moment was there when all had come
                for Arrival { pass, gone } in waiting.drain(..) {
                    choose![pass.send_evt(times), gone].sync();
                }
                times += 1;
            }
        }
    }
}

fn main() {
    let barrier = Barrier::new(3);
    let threads: Vec<_> = (0..3).map(|_| barrier.clone()).map(|own| spawn(move || own.wait().sync())).collect();
    threads.into_iter().for_each(|thread| println!("time {}", thread.join().expect("no panic")));
    println!("alone: {:?}", barrier.wait().sync_within(Duration::from_millis(10)));
}

#[test]
fn nobody_goes_before_all_have_come() {
    let barrier = Barrier::new(5);
    let threads: Vec<_> = (0..5)
        .map(|_| barrier.clone())
        .map(|own| spawn(move || (0..100).map(|_| own.wait().sync()).collect::<Vec<_>>()))
        .collect();
    threads.into_iter().for_each(|thread| assert_eq!(thread.join().unwrap(), (0..100).collect::<Vec<_>>()));
}

#[test]
fn who_leaves_is_not_counted() {
    let barrier = Barrier::new(2);
    for _ in 0..10 {
        assert_eq!(barrier.wait().sync_within(Duration::from_millis(1)), None);
    }
    let other = barrier.clone();
    let other = spawn(move || other.wait().sync());
    assert_eq!(barrier.wait().sync_within(Duration::from_secs(5)), Some(0));
    assert_eq!(other.join().unwrap(), 0);
}
