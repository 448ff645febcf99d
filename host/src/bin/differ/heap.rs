//! The standard heap, which also remembers what it gave out.

use std::collections::TryReserveError;

#[derive(Debug)]
pub struct BinaryHeap<T> {
    heap: std::collections::BinaryHeap<T>,
    taken: Vec<T>,
}

impl<T: Ord> Default for BinaryHeap<T> {
    fn default() -> Self {
        Self {
            heap: std::collections::BinaryHeap::new(),
            taken: Vec::new(),
        }
    }
}

impl<T: Ord + Copy> BinaryHeap<T> {
    pub fn push(&mut self, value: T) {
        self.heap.push(value);
    }

    pub fn pop(&mut self) -> Option<T> {
        let value = self.heap.pop()?;
        self.taken.push(value);
        Some(value)
    }

    pub fn taken(&mut self) -> Vec<T> {
        std::mem::take(&mut self.taken)
    }

    pub fn clear(&mut self) {
        self.heap.clear();
    }

    pub fn len(&self) -> usize {
        self.heap.len()
    }

    pub fn capacity(&self) -> usize {
        self.heap.capacity()
    }

    pub fn try_reserve_exact(&mut self, additional: usize) -> Result<(), TryReserveError> {
        self.heap.try_reserve_exact(additional)
    }
}
