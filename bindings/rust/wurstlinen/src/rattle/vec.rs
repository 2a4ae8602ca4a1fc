use super::alloc::{AllocError, AllocFailed, Global};
use core::ops::{Deref, DerefMut};
use alloc::vec;

/// A list whose calls that allocate return a `Result`. Its other calls are those of Rust's `Vec`.
#[derive(Debug, PartialEq, Eq)]
pub struct Vec<T>(vec::Vec<T>);

/// Collects what an iterator gives, unless there is no memory for it.
pub trait CollectIn: Iterator + Sized {
    fn collect_in<C: From<Vec<Self::Item>>>(self, alloc: Global) -> Result<C, AllocError> {
        let mut list = Vec::with_capacity(alloc, self.size_hint().0)?;
        for item in self {
            list.reserve(1)?;
            list.0.push(item);
        }
        Ok(list.into())
    }
}

impl<I: Iterator> CollectIn for I {}

impl<T> Vec<T> {
    pub const fn new(_: Global) -> Vec<T> {
        Vec(vec::Vec::new())
    }

    pub fn with_capacity(alloc: Global, capacity: usize) -> Result<Vec<T>, AllocError> {
        let mut list = Vec::new(alloc);
        match list.0.try_reserve_exact(capacity) {
            Ok(()) => Ok(list),
            Err(_) => Err(AllocError),
        }
    }

    pub fn from_slice(alloc: Global, items: &[T]) -> Result<Vec<T>, AllocError>
    where
        T: Copy,
    {
        let mut list = Vec::with_capacity(alloc, items.len())?;
        list.0.extend_from_slice(items);
        Ok(list)
    }

    pub fn extend_from_slice(&mut self, items: &[T]) -> Result<(), AllocError>
    where
        T: Copy,
    {
        self.reserve(items.len())?;
        self.0.extend_from_slice(items);
        Ok(())
    }

    pub fn reserve(&mut self, more: usize) -> Result<(), AllocError> {
        self.0.try_reserve(more).map_err(|_| AllocError)
    }

    pub fn push(&mut self, value: T) -> Result<(), AllocFailed<T>> {
        self.insert(self.0.len(), value)
    }

    pub fn insert(&mut self, index: usize, value: T) -> Result<(), AllocFailed<T>> {
        match self.0.try_reserve(1) {
            Ok(()) => {
                self.0.insert(index, value);
                Ok(())
            }
            Err(_) => Err(AllocFailed { value }),
        }
    }

    /// Adds an element for which there is memory.
    #[inline(always)]
    pub fn push_reserved(&mut self, value: T) {
        debug_assert!(self.0.len() < self.0.capacity());
        self.0.push(value);
    }

    pub fn allocator(&self) -> &Global {
        &Global
    }

    pub fn destroy_empty(self) {}
}

impl<T> Deref for Vec<T> {
    type Target = vec::Vec<T>;

    #[inline(always)]
    fn deref(&self) -> &vec::Vec<T> {
        &self.0
    }
}

impl<T> DerefMut for Vec<T> {
    #[inline(always)]
    fn deref_mut(&mut self) -> &mut vec::Vec<T> {
        &mut self.0
    }
}

impl<T> From<vec::Vec<T>> for Vec<T> {
    fn from(list: vec::Vec<T>) -> Vec<T> {
        Vec(list)
    }
}

impl<T> IntoIterator for Vec<T> {
    type Item = T;
    type IntoIter = vec::IntoIter<T>;

    fn into_iter(self) -> vec::IntoIter<T> {
        self.0.into_iter()
    }
}

impl<'a, T> IntoIterator for &'a Vec<T> {
    type Item = &'a T;
    type IntoIter = core::slice::Iter<'a, T>;

    fn into_iter(self) -> core::slice::Iter<'a, T> {
        self.0.iter()
    }
}
