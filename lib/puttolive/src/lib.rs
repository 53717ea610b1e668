#![doc = include_str!("../docs/front.md")]
#![deny(unsafe_code)]

#[cfg(not(schedules))]
mod archive;
mod channel;
mod event;
mod forcing;
pub mod guide;
mod halves;
mod hub;
mod latch;
mod record;
#[cfg(schedules)]
#[allow(missing_docs)]
pub mod schedule;
mod select;
#[cfg(all(test, not(schedules)))]
mod side_by_side;
mod signal;
#[cfg(any(test, schedules))]
mod stand_in;
mod sync;
mod table;
mod task;
mod timer;

pub use channel::{Channel, RecvEvt, SendEvt, SendFrom};
pub use event::{
    Always, At, BoxedEvent, Choose, Either, EitherOr, Event, Guard, Nack, Never, Or, WithNack, Wrap, always, at,
    choose, guard, never, timeout, with_nack,
};
pub use halves::{IntoIter, Iter, Receiver, ReceiverEvt, SendTimeoutError, Sender, SenderEvt, TryIter, channel};
pub use hub::{Config, Hub, Stats};
pub use signal::{Signal, SignalEvt, Spawned, spawn};
pub use std::sync::mpsc::{RecvError, RecvTimeoutError, SendError, TryRecvError, TrySendError};
pub use task::Synced;
