// Made by tools/erase of crates/channels/src/lib.rt, and not to be edited.

//! One channel: who waits to send on it, and who to receive, the oldest first.
//!
//! It is plain data. Whoever could meet is never left standing.

mod buffered;
mod channel;
mod held;
mod line;
mod pulls;
mod waiting;

pub use crate::engine::channels::buffered::{Buffered, HoldFault, TakeFault};
pub use crate::engine::channels::channel::Channel;
pub use crate::engine::channels::held::Held;
pub use crate::engine::channels::line::Line;
pub use crate::engine::channels::pulls::{Pull, Pulls};
pub use crate::engine::channels::waiting::{Side, StandFault, Waiting, Who};
