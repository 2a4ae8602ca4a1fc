//! The allocator, and what a failed allocation returns.
use core::error::Error;
use core::fmt::{Debug, Display, Formatter, Result};

/// The global allocator of Rust.
#[derive(Clone, Copy, Debug, Default, PartialEq, Eq)]
pub struct Global;

/// Out of memory.
#[derive(Clone, Copy, Debug, PartialEq, Eq)]
pub struct AllocError;

/// Out of memory, with what couldn't be stored.
pub struct AllocFailed<T> {
    /// What couldn't be stored.
    pub value: T,
}

impl Display for AllocError {
    fn fmt(&self, f: &mut Formatter<'_>) -> Result {
        f.write_str("out of memory")
    }
}

impl Error for AllocError {}

impl<T> Debug for AllocFailed<T> {
    fn fmt(&self, f: &mut Formatter<'_>) -> Result {
        f.write_str("AllocFailed")
    }
}

impl<T> Display for AllocFailed<T> {
    fn fmt(&self, f: &mut Formatter<'_>) -> Result {
        f.write_str("out of memory")
    }
}

impl<T> Error for AllocFailed<T> {}

impl<T> From<AllocFailed<T>> for AllocError {
    fn from(_: AllocFailed<T>) -> AllocError {
        AllocError
    }
}
