//! The heap's calls on a plain list, to compare the heap with.

use giputils_heap::{BinaryHeapCmp, HeapKey};
use std::alloc::{AllocError, Allocator, Global};

/// A heap that keeps its keys in the order in which they came, and looks through all of them at each pop.
///
/// It keeps no order among its keys, so there is nothing to restore when ranks change.
#[derive(Drop)]
pub struct ListHeap<T: HeapKey, A: Allocator = Global> {
    keys: Vec<T, A>,
}

impl<T: HeapKey, A: Allocator> ListHeap<T, A> {
    /// A heap that holds nothing.
    pub fn new(alloc: A) -> Self {
        ListHeap {
            keys: Vec::new(alloc),
        }
    }

    /// The number of held keys.
    pub fn len(&self) -> usize {
        self.keys.len()
    }

    /// Whether nothing is held.
    pub fn is_empty(&self) -> bool {
        self.keys.is_empty()
    }

    /// Holds nothing afterwards.
    pub fn clear(&mut self) {
        self.keys.clear();
    }

    /// Whether a key is held.
    pub fn holds(&self, v: T) -> bool {
        let number = v.key();
        self.keys.iter().any(|k| number == k.key())
    }

    /// Holds `v` as well, after the others. A key that is held already is left alone.
    ///
    /// # Errors
    /// `AllocError` where memory for a key that was not held is refused. The heap is then unchanged.
    pub fn push<C: BinaryHeapCmp<T>>(&mut self, v: T, _cmp: &C) -> Result<(), AllocError> {
        if self.holds(v) {
            return Ok(());
        }
        self.keys.push(v)?;
        Ok(())
    }

    /// Takes out the first key that is at least every key, or the first of all where there is none such. `None` where
    /// nothing is held.
    pub fn pop<C: BinaryHeapCmp<T>>(&mut self, cmp: &C) -> Option<T> {
        if self.keys.is_empty() {
            return None;
        }
        let place = greatest_place(self.keys.as_slice(), cmp);
        Some(self.keys.remove(place))
    }

    /// Lets a key go. Tells whether it was held.
    pub fn remove(&mut self, v: T) -> bool {
        let held = self.holds(v);
        let number = v.key();
        self.keys.retain(|k| number != k.key());
        held
    }
}

// The place of the first key that is at least every key, or of the first of all where there is none such.
fn greatest_place<T: HeapKey, C: BinaryHeapCmp<T>>(keys: &[T], cmp: &C) -> usize {
    for place in 0..keys.len() {
        if is_above(keys, keys[place], cmp) {
            return place;
        }
    }
    0
}

// Whether a key is at least every key.
fn is_above<T: HeapKey, C: BinaryHeapCmp<T>>(keys: &[T], key: T, cmp: &C) -> bool {
    keys.iter().all(|other| cmp.gte(key, *other))
}
