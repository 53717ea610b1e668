//! Futures: a value that a thread computes, as an event that any number of threads may wait for.
use puttolive::*;
use std::sync::{Arc, OnceLock};
use std::time::Duration;

#[derive(Clone)]
struct Future<T> {
    value: Arc<OnceLock<T>>,
    is_there: Signal,
}

impl<T: Send + Sync + Clone + 'static> Future<T> {
    /// Computes the value in a thread of its own.
    fn new(compute: impl FnOnce() -> T + Send + 'static) -> Future<T> {
        let future = Future { value: Arc::default(), is_there: Signal::new() };
        let own = future.clone();
        spawn(move || {
            let _ = own.value.set(compute());
            own.is_there.fire();
        });
        future
    }

    /// An event: the value, as soon as it is there.
    fn get(&self) -> impl Event<Output = T> {
        let value = self.value.clone();
        self.is_there.evt().wrap(move |()| value.get().cloned().expect("it fires when the value is there"))
    }
}

fn main() {
    let slow = Future::new(|| {
        std::thread::sleep(Duration::from_millis(50));
        "slow"
    });
    let fast = Future::new(|| "fast");
    println!("{}", choose![slow.get(), fast.get()].sync());
    println!("{}", slow.get().sync());
}

#[test]
fn all_who_wait_get_it() {
    let future = Future::new(|| {
        std::thread::sleep(Duration::from_millis(5));
        42
    });
    let readers: Vec<_> = (0..10).map(|_| future.clone()).map(|own| spawn(move || own.get().sync())).collect();
    assert!(readers.into_iter().all(|reader| reader.join().unwrap() == 42));
    assert_eq!(future.get().poll(), Some(42));
}
