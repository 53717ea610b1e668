//! Syncs of tasks: an event as a future. A task that waits costs no thread.

use crate::event::{Event, Ready};
use crate::forcing::Forcing;
use crate::record::{Answered, Record};
use crate::sync;
use crate::timer::{Due, Timer};
use std::pin::Pin;
use std::sync::Arc;
use std::task::{Context, Poll};
use std::{fmt, mem};

/// The base event of a future that was dropped: it is in no scope, so each nack fires.
const DROPPED: u32 = u32::MAX;

/// An event that a task waits for: see [`Event::wait`].
#[must_use = "a future does nothing unless it is awaited"]
pub struct Synced<E: Event> {
    state: State<E>,
}

enum State<E: Event> {
    New(E),
    Waits(Waits<E>),
    Over,
}

/// A sync of a task that has no answer yet.
struct Waits<E: Event> {
    forcing: Box<Forcing>,
    ready: E::Ready,
    record: Arc<Record>,
    ticket: u64,
    timer: Option<Timer>,
}

impl<E: Event> Synced<E> {
    pub(crate) fn new(event: E) -> Synced<E> {
        Synced { state: State::New(event) }
    }
}

impl<E: Event> fmt::Debug for Synced<E> {
    fn fmt(&self, formatter: &mut fmt::Formatter<'_>) -> fmt::Result {
        formatter.write_str("Synced")
    }
}

/// Nothing in it is ever pinned.
impl<E: Event> Unpin for Synced<E> {}

impl<E: Event> Waits<E> {
    /// Runs the guards and begins the sync: its answer, or what waits for it.
    fn begin(event: E) -> Result<E::Output, Waits<E>> {
        let mut forcing = Forcing::new();
        let ready = event.force(&mut forcing);
        let record = Record::of_task();
        let started = forcing.start(&record);
        let mut waits = Waits { forcing, ready, record, ticket: 0, timer: None };
        match started {
            Ok(answered) => Ok(waits.finish(answered)),
            Err(waiting) => {
                let ticket = waiting.ticket;
                waits.ticket = ticket;
                waits.timer = waits.forcing.due().map(|(time, base, hub)| {
                    let due = Due { record: waits.record.clone(), ticket, base, hub };
                    Timer::set(time, due)
                });
                Err(waits)
            }
        }
    }

    fn finish(mut self, answered: Answered) -> E::Output {
        let pick = answered.pick;
        self.ready.settle(pick);
        drop(self.timer);
        self.forcing.end(&self.record, answered);
        Record::keep(self.record);
        self.ready.finish(pick)
    }

    /// The task does not wait any more. What it got by then is dropped.
    fn give_up(mut self) {
        let is_dropped = self.forcing.alarm(&self.record, self.ticket, DROPPED);
        let answered = loop {
            if let Some(answered) = self.record.settled() {
                break answered;
            }
            // its partner is about to settle it
            sync::pass_on();
        };
        if !is_dropped {
            self.ready.settle(answered.pick);
        }
        drop(self.timer);
        self.forcing.end(&self.record, answered);
        Record::keep(self.record);
    }
}

impl<E: Event> Future for Synced<E> {
    type Output = E::Output;

    fn poll(self: Pin<&mut Self>, context: &mut Context<'_>) -> Poll<E::Output> {
        let this = self.get_mut();
        if let State::New(_) = &this.state {
            let State::New(event) = mem::replace(&mut this.state, State::Over) else { unreachable!("it is new") };
            match Waits::begin(event) {
                Ok(output) => return Poll::Ready(output),
                Err(waits) => this.state = State::Waits(waits),
            }
        }
        let State::Waits(waits) = &this.state else { panic!("polled after its answer") };
        let Some(answered) = waits.record.poll(context) else {
            return Poll::Pending;
        };
        let State::Waits(waits) = mem::replace(&mut this.state, State::Over) else { unreachable!("it waits") };
        Poll::Ready(waits.finish(answered))
    }
}

/// Where it waits it is answered by its being dropped. Where it was answered before, what it got is dropped with it.
impl<E: Event> Drop for Synced<E> {
    fn drop(&mut self) {
        if let State::Waits(waits) = mem::replace(&mut self.state, State::Over) {
            waits.give_up();
        }
    }
}
