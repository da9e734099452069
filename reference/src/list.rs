//! A list of fixed capacity, in order of entry.

use std::fmt;
use std::ops::{Deref, DerefMut};

/// Up to `N` items in place, without the heap. `N` is at most 255.
#[derive(Clone)]
pub struct List<T, const N: usize> {
    len: u8,
    items: [T; N],
}

impl<T: Copy + Default, const N: usize> List<T, N> {
    pub fn new() -> Self {
        const { assert!(N <= u8::MAX as usize) };
        List {
            len: 0,
            items: [T::default(); N],
        }
    }

    pub fn is_full(&self) -> bool {
        self.len() == N
    }

    /// Adds at the end; a full list stays as it is and says false.
    pub fn push(&mut self, item: T) -> bool {
        let Some(place) = self.items.get_mut(self.len as usize) else {
            return false;
        };
        *place = item;
        self.len += 1;
        true
    }

    /// Takes one item out; the others keep their order.
    pub fn remove(&mut self, at: usize) {
        let len = self.len();
        assert!(at < len);
        self.items.copy_within(at + 1..len, at);
        self.len -= 1;
    }

    /// Keeps the items that pass, in order.
    pub fn retain(&mut self, mut keep: impl FnMut(&T) -> bool) {
        let mut kept = 0;
        for at in 0..self.len() {
            let item = self.items[at];
            if keep(&item) {
                self.items[kept] = item;
                kept += 1;
            }
        }
        self.len = kept as u8;
    }

    pub fn clear(&mut self) {
        self.len = 0;
    }
}

impl<T: Copy + Default, const N: usize> Default for List<T, N> {
    fn default() -> Self {
        List::new()
    }
}

impl<T, const N: usize> Deref for List<T, N> {
    type Target = [T];
    fn deref(&self) -> &[T] {
        &self.items[..self.len as usize]
    }
}

impl<T, const N: usize> DerefMut for List<T, N> {
    fn deref_mut(&mut self) -> &mut [T] {
        &mut self.items[..self.len as usize]
    }
}

// Unused places are no part of the value.
impl<T: PartialEq, const N: usize> PartialEq for List<T, N> {
    fn eq(&self, other: &Self) -> bool {
        self[..] == other[..]
    }
}

impl<T: Eq, const N: usize> Eq for List<T, N> {}

impl<T: fmt::Debug, const N: usize> fmt::Debug for List<T, N> {
    fn fmt(&self, f: &mut fmt::Formatter<'_>) -> fmt::Result {
        self[..].fmt(f)
    }
}
