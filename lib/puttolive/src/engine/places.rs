// Made by tools/erase of crates/engine/src/places.rt, and not to be edited.

//! Places for many of one kind. A place is used again after what stood there is gone.

use crate::engine::shim::{AllocError, Vec};

/// A place, in use or free.
pub(crate) struct Slot<T> {
    pub(crate) used: bool,
    /// Tells what stands here from all that stood here before.
    pub(crate) generation: u64,
    /// What stands here. In a free place it is of no meaning, and its memory may be used again.
    pub(crate) value: T,
    /// The next place that may be free.
    pub(crate) next_free: u32,
}

/// Places in a row.
pub(crate) struct Places<T> {
    pub(crate) slots: Vec<Slot<T>>,
    /// The first place that may be free.
    pub(crate) free: u32,
}

impl<T> Places<T> {
    /// No places.
    pub(crate) fn new() -> Places<T> {
        Places { slots: Vec::new(), free: u32::MAX }
    }

    /// Whether something of this generation stands in the place.
    #[inline]
    pub(crate) fn holds(&self, index: u32, generation: u64) -> bool {
        match self.slots.get(index as usize) {
            Some(slot) => slot.used && slot.generation == generation,
            None => false,
        }
    }

    /// The first place that may be free, if it is.
    #[inline]
    fn first_free(&self) -> Option<u32> {
        match self.slots.get(self.free as usize) {
            Some(slot) if !slot.used => Some(self.free),
            _ => None,
        }
    }

    /// A free place. If a new one has to be made, it holds this value.
    #[inline]
    pub(crate) fn free_place(&mut self, empty: T) -> Result<u32, AllocError> {
        if let Some(index) = self.first_free() {
            return Ok(index);
        }
        let index = self.slots.len();
        if index >= u32::MAX as usize {
            return Err(AllocError);
        }
        self.slots.push(Slot { used: false, generation: 0, value: empty, next_free: self.free })?;
        self.free = index as u32;
        Ok(self.free)
    }

    /// Uses a free place for what was put there.
    #[inline]
    pub(crate) fn begin(&mut self, index: u32, generation: u64) {
        let slot = &mut self.slots[index as usize];
        slot.used = true;
        slot.generation = generation;
        self.free = slot.next_free;
    }

    /// Puts a value into a place that was free.
    pub(crate) fn open(&mut self, generation: u64, value: T) -> Result<u32, AllocError> {
        if let Some(index) = self.first_free() {
            self.slots[index as usize].value = value;
            self.begin(index, generation);
            return Ok(index);
        }
        let index = self.slots.len();
        if index >= u32::MAX as usize {
            return Err(AllocError);
        }
        self.slots.push(Slot { used: true, generation, value, next_free: self.free })?;
        Ok(index as u32)
    }

    /// Frees a place.
    #[inline]
    pub(crate) fn leave(&mut self, index: u32) {
        let slot = &mut self.slots[index as usize];
        slot.used = false;
        slot.next_free = self.free;
        self.free = index;
    }
}
