//! The calls of Rattle's `ArrayVec` that take or lend its allocator.
use super::alloc::Global;
use arrayvec::ArrayVec;

/// An `ArrayVec` needs no memory, but its text passes an allocator.
pub trait WithAllocator {
    /// An empty list.
    fn new_in(alloc: Global) -> Self;

    /// The allocator.
    fn allocator(&self) -> &Global {
        &Global
    }
}

impl<T, const N: usize> WithAllocator for ArrayVec<T, N> {
    fn new_in(_: Global) -> ArrayVec<T, N> {
        ArrayVec::new()
    }
}
