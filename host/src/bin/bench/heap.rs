//! The standard heap as it is; nothing is remembered.

use std::collections::TryReserveError;

#[derive(Debug)]
pub struct BinaryHeap<T>(std::collections::BinaryHeap<T>);

impl<T: Ord> Default for BinaryHeap<T> {
    fn default() -> Self {
        Self(std::collections::BinaryHeap::new())
    }
}

impl<T: Ord> BinaryHeap<T> {
    #[inline]
    pub fn push(&mut self, value: T) {
        self.0.push(value);
    }

    #[inline]
    pub fn pop(&mut self) -> Option<T> {
        self.0.pop()
    }

    pub fn taken(&mut self) -> Vec<T> {
        Vec::new()
    }

    #[inline]
    pub fn clear(&mut self) {
        self.0.clear();
    }

    #[inline]
    pub fn len(&self) -> usize {
        self.0.len()
    }

    #[inline]
    pub fn capacity(&self) -> usize {
        self.0.capacity()
    }

    #[inline]
    pub fn try_reserve_exact(&mut self, additional: usize) -> Result<(), TryReserveError> {
        self.0.try_reserve_exact(additional)
    }
}
