// Made by tools/erase of crates/channels/src/held.rt, and not to be edited.

//! Messages that were sent and that nobody has received, the oldest first.

use crate::engine::shim::{AllocError, VecDeque};

/// Messages, by their numbers, and for how many there is room.
pub struct Held {
    values: VecDeque<u64>,
    room: usize,
}

impl Held {
    /// Nothing is held. There is room for so many: 0 is none, and `usize::MAX` is without bound.
    pub fn new(room: usize) -> Held {
        Held { values: VecDeque::new(), room }
    }

    /// How many are held.
    #[inline]
    pub fn len(&self) -> usize {
        self.values.len()
    }

    /// Whether none is held.
    #[inline]
    pub fn is_empty(&self) -> bool {
        self.values.is_empty()
    }

    /// Whether there is room for one more.
    #[inline]
    pub fn has_room(&self) -> bool {
        self.values.len() < self.room
    }

    /// Holds one more. An error says that there is no memory.
    #[inline]
    pub fn put(&mut self, value: u64) -> Result<(), AllocError> {
        self.values.push_back(value)?;
        Ok(())
    }

    /// Takes the oldest out.
    #[inline]
    pub fn take(&mut self) -> Option<u64> {
        self.values.pop_front()
    }

    /// Takes the oldest out and holds another one, which needs no memory. Where none is held nothing changes.
    #[inline]
    pub fn exchange(&mut self, value: u64) -> Option<u64> {
        let oldest = self.values.pop_front()?;
        self.values.push_back_reserved(value);
        Some(oldest)
    }
}
