// Made by tools/erase of crates/engine/src/lib.rt, and not to be edited.
// No module names this folder yet: tests/erase builds and tries it.

//! A select engine for Concurrent ML's events: which syncs wait, and which may be answered.
//!
//! It is plain data, to stand behind one lock. Nobody who could meet is left waiting.

#![forbid(unsafe_code)]
#![allow(clippy::len_without_is_empty, clippy::needless_range_loop, clippy::new_without_default)]

mod calls;
pub mod channels;
mod held;
mod lines;
mod offers;
mod order;
mod places;
mod shim;
mod table;

pub use crate::engine::calls::Engine;
pub use crate::engine::offers::{Answer, Answered, ChannelKey, Entered, Kind, LatchKey, Offer, Refusal, SyncKey};
pub use crate::engine::shim::AllocError;
