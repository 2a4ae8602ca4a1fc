//! The runtime, and what it may do. Here any value may do everything.
use super::alloc::Global;
#[cfg(feature = "program")]
use super::fs::File;

/// May read the clock.
pub trait Clock {}

/// May write to standard error.
pub trait Eprint {}

/// May write to standard output.
pub trait Print {}

/// May do all of it.
pub trait Runtime {}

/// Has the allocator.
pub trait AllocGlobal {
    /// The allocator.
    fn alloc(&self) -> Global;
}

/// May read and write files.
#[cfg(feature = "program")]
pub trait Files {
    /// An open file.
    type File;
}

impl<T> Clock for T {}

impl<T> Eprint for T {}

impl<T> Print for T {}

impl<T> Runtime for T {}

#[cfg(feature = "program")]
impl<T> Files for T {
    type File = File;
}

/// The runtime of the program.
#[derive(Clone, Copy, Debug)]
pub struct HostRuntime;

impl HostRuntime {
    /// The allocator.
    pub fn alloc(&self) -> Global {
        Global
    }
}

impl AllocGlobal for HostRuntime {
    fn alloc(&self) -> Global {
        Global
    }
}
