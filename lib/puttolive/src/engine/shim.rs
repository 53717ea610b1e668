// Made by tools/erase of tools/erase_shim.rs, and not to be edited.

//! Collections whose growth says when there is no memory, over Rust's. Nothing here is proved.

use std::ops::{Deref, DerefMut};

/// There is no memory.
#[derive(Clone, Copy, PartialEq, Eq, Debug)]
pub struct AllocError;

/// Rust's vector.
pub(crate) struct Vec<T>(std::vec::Vec<T>);

impl<T> Vec<T> {
    pub(crate) const fn new() -> Vec<T> {
        Vec(std::vec::Vec::new())
    }

    /// Adds an item behind all. After an error it is as before.
    #[inline]
    pub(crate) fn push(&mut self, item: T) -> Result<(), AllocError> {
        if self.0.len() == self.0.capacity() {
            self.0.try_reserve(1).map_err(|_| AllocError)?;
        }
        self.0.push(item);
        Ok(())
    }

    pub(crate) fn as_slice(&self) -> &[T] {
        &self.0
    }

    pub(crate) fn clear(&mut self) {
        self.0.clear();
    }

    pub(crate) fn retain(&mut self, stays: impl FnMut(&T) -> bool) {
        self.0.retain(stays);
    }

    /// Adds the items behind all. After an error it is as before.
    #[inline]
    pub(crate) fn extend_from_slice(&mut self, items: &[T]) -> Result<(), AllocError>
    where
        T: Copy,
    {
        self.0.try_reserve(items.len()).map_err(|_| AllocError)?;
        self.0.extend_from_slice(items);
        Ok(())
    }
}

impl<T> Deref for Vec<T> {
    type Target = [T];

    fn deref(&self) -> &[T] {
        &self.0
    }
}

impl<T> DerefMut for Vec<T> {
    fn deref_mut(&mut self) -> &mut [T] {
        &mut self.0
    }
}

/// Rust's queue.
pub(crate) struct VecDeque<T>(std::collections::VecDeque<T>);

impl<T> VecDeque<T> {
    pub(crate) const fn new() -> VecDeque<T> {
        VecDeque(std::collections::VecDeque::new())
    }

    pub(crate) fn len(&self) -> usize {
        self.0.len()
    }

    pub(crate) fn is_empty(&self) -> bool {
        self.0.is_empty()
    }

    pub(crate) fn iter(&self) -> std::collections::vec_deque::Iter<'_, T> {
        self.0.iter()
    }

    /// Adds an item behind all. After an error it is as before.
    #[inline]
    pub(crate) fn push_back(&mut self, item: T) -> Result<(), AllocError> {
        if self.0.len() == self.0.capacity() {
            self.0.try_reserve(1).map_err(|_| AllocError)?;
        }
        self.0.push_back(item);
        Ok(())
    }

    /// Adds an item behind all, where there is room for it: nothing is asked for.
    #[inline]
    pub(crate) fn push_back_reserved(&mut self, item: T) {
        debug_assert!(self.0.len() < self.0.capacity());
        self.0.push_back(item);
    }

    pub(crate) fn pop_front(&mut self) -> Option<T> {
        self.0.pop_front()
    }

    pub(crate) fn retain(&mut self, stays: impl FnMut(&T) -> bool) {
        self.0.retain(stays);
    }
}
