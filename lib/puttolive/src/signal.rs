//! What happens once: signals, and the ends of threads.

use crate::event::{Event, Moment};
use crate::forcing::Forcing;
use crate::latch::Latch;
use crate::sync;
use std::fmt;
use std::sync::Arc;

/// Something that happens once. Whoever has a clone may [`fire`](Signal::fire) it, and any number of threads may wait
/// for it, then or later.
///
/// ```
/// use puttolive::*;
/// let stop = Signal::new();
/// let worker = spawn({
///     let stop = stop.clone();
///     move || choose![stop.evt().wrap(|()| "stopped"), never()].sync()
/// });
/// stop.fire();
/// assert_eq!(worker.join().unwrap(), "stopped");
/// ```
#[derive(Clone, Debug, Default)]
pub struct Signal {
    latch: Arc<Latch>,
}

/// The event that a [`Signal`] has fired, or that a thread has ended.
#[derive(Clone, Debug)]
pub struct SignalEvt {
    latch: Arc<Latch>,
}

impl Signal {
    /// A signal that has not fired.
    pub fn new() -> Signal {
        Signal::default()
    }

    /// Fires the signal. To fire it again changes nothing.
    pub fn fire(&self) {
        self.latch.fire();
    }

    /// Comes when the signal is fired, and at once where it was fired before.
    pub fn evt(&self) -> SignalEvt {
        SignalEvt { latch: self.latch.clone() }
    }

    pub(crate) fn latch(&self) -> Arc<Latch> {
        self.latch.clone()
    }
}

impl Event for SignalEvt {
    type Output = ();
    type Ready = Moment;

    fn force(self, to: &mut Forcing) -> Moment {
        to.latch(self.latch);
        Moment
    }
}

/// A thread that was spawned, and the event of its end: see [`spawn`].
pub struct Spawned<T> {
    ended: Signal,
    handle: sync::JoinHandle<T>,
}

impl<T> fmt::Debug for Spawned<T> {
    fn fmt(&self, formatter: &mut fmt::Formatter<'_>) -> fmt::Result {
        formatter.write_str("Spawned")
    }
}

/// Starts a thread. Its end, by a panic too, is an event.
///
/// ```
/// use puttolive::*;
/// let thread = spawn(|| 42);
/// thread.joined().sync();
/// assert_eq!(thread.join().unwrap(), 42);
/// ```
pub fn spawn<T: Send + 'static>(body: impl FnOnce() -> T + Send + 'static) -> Spawned<T> {
    struct Ends(Signal);
    impl Drop for Ends {
        fn drop(&mut self) {
            self.0.fire();
        }
    }
    let ended = Signal::new();
    let ends = Ends(ended.clone());
    let handle = sync::spawn(move || {
        let _ends = ends;
        body()
    });
    Spawned { ended, handle }
}

impl<T> Spawned<T> {
    /// Comes when the thread has ended.
    pub fn joined(&self) -> SignalEvt {
        self.ended.evt()
    }

    /// Waits for the thread's end: what it came to, or the panic that ended it.
    pub fn join(self) -> std::thread::Result<T> {
        self.handle.join()
    }
}
