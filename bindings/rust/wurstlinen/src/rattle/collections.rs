//! Collections whose calls that allocate return a `Result`. Their other calls are those of Rust's.
//!
//! Stable Rust can't tell that an insert into a map finds no memory: it aborts the program.
use super::alloc::{AllocError, AllocFailed, Global};
use alloc::collections;
use core::ops::{Deref, DerefMut};

/// A map.
#[derive(Debug)]
pub struct BTreeMap<K, V>(collections::BTreeMap<K, V>);

/// A set.
#[derive(Debug)]
pub struct BTreeSet<T>(collections::BTreeSet<T>);

/// A queue.
#[derive(Debug)]
pub struct VecDeque<T>(collections::VecDeque<T>);

impl<K: Ord, V> BTreeMap<K, V> {
    /// An empty map.
    pub const fn new(_: Global) -> BTreeMap<K, V> {
        BTreeMap(collections::BTreeMap::new())
    }

    /// Maps a key to a value. Returns the value that it had.
    pub fn insert(&mut self, key: K, value: V) -> Result<Option<V>, AllocError> {
        Ok(self.0.insert(key, value))
    }
}

impl<T: Ord> BTreeSet<T> {
    /// An empty set.
    pub const fn new(_: Global) -> BTreeSet<T> {
        BTreeSet(collections::BTreeSet::new())
    }

    /// Adds an element. Returns whether it is new.
    pub fn insert(&mut self, value: T) -> Result<bool, AllocError> {
        Ok(self.0.insert(value))
    }

    /// Moves all elements of another set into this one.
    pub fn append(&mut self, other: &mut BTreeSet<T>) -> Result<(), AllocError> {
        self.0.append(&mut other.0);
        Ok(())
    }
}

impl<T> VecDeque<T> {
    /// An empty queue.
    pub const fn new(_: Global) -> VecDeque<T> {
        VecDeque(collections::VecDeque::new())
    }

    /// An empty queue with memory for so many elements.
    pub fn with_capacity(alloc: Global, capacity: usize) -> Result<VecDeque<T>, AllocError> {
        let mut queue = VecDeque::new(alloc);
        match queue.0.try_reserve_exact(capacity) {
            Ok(()) => Ok(queue),
            Err(_) => Err(AllocError),
        }
    }

    /// Adds an element.
    pub fn push_back(&mut self, value: T) -> Result<(), AllocFailed<T>> {
        match self.0.try_reserve(1) {
            Ok(()) => {
                self.0.push_back(value);
                Ok(())
            }
            Err(_) => Err(AllocFailed { value }),
        }
    }

    /// Adds an element for which there is memory.
    #[inline(always)]
    pub fn push_back_reserved(&mut self, value: T) {
        debug_assert!(self.0.len() < self.0.capacity());
        self.0.push_back(value);
    }

    /// Ends an empty queue.
    pub fn destroy_empty(self) {}
}

impl<K, V> Deref for BTreeMap<K, V> {
    type Target = collections::BTreeMap<K, V>;

    fn deref(&self) -> &collections::BTreeMap<K, V> {
        &self.0
    }
}

impl<K, V> DerefMut for BTreeMap<K, V> {
    fn deref_mut(&mut self) -> &mut collections::BTreeMap<K, V> {
        &mut self.0
    }
}

impl<T> Deref for BTreeSet<T> {
    type Target = collections::BTreeSet<T>;

    fn deref(&self) -> &collections::BTreeSet<T> {
        &self.0
    }
}

impl<T> DerefMut for BTreeSet<T> {
    fn deref_mut(&mut self) -> &mut collections::BTreeSet<T> {
        &mut self.0
    }
}

impl<T> Deref for VecDeque<T> {
    type Target = collections::VecDeque<T>;

    #[inline(always)]
    fn deref(&self) -> &collections::VecDeque<T> {
        &self.0
    }
}

impl<T> DerefMut for VecDeque<T> {
    #[inline(always)]
    fn deref_mut(&mut self) -> &mut collections::VecDeque<T> {
        &mut self.0
    }
}
