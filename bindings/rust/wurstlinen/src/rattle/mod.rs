//! What the crate's text calls of Rattle's standard library and Rust's lacks, over Rust's.
//!
//! This crate is made of text in Rattle, which is Rust with contracts. There, what allocates is passed an allocator and
//! returns a `Result`, so [`Vec`](prelude::Vec) and the collections here do too. [`Global`](alloc::Global) is Rust's
//! allocator. What reads a clock, prints or waits is passed a runtime; here that is any value, such as `&()`.
pub mod alloc;
pub mod array_vec;
pub mod boxed;
pub mod collections;
#[cfg(feature = "program")]
pub mod env;
#[doc(hidden)]
pub mod for_c;
#[cfg(feature = "program")]
pub mod fs;
pub mod hex;
#[cfg(feature = "std")]
pub mod io;
#[doc(hidden)]
pub mod macros;
pub mod marker;
pub mod prelude;
#[cfg(feature = "std")]
pub mod process;
#[cfg(feature = "std")]
pub mod rt;
#[cfg(feature = "program")]
mod stdout;
#[cfg(feature = "std")]
pub mod sync;
#[cfg(feature = "std")]
pub mod thread;
#[cfg(feature = "std")]
pub mod time;
mod vec;

pub use core::{cmp, fmt, iter, mem, num, ops, ptr, slice, str};
#[cfg(feature = "std")]
pub use std::os;

pub use crate::{eprintln_to, format_in, println_to, prove, vec_in};

pub mod clone {
    //! Copies that may find no memory.
    use super::alloc::AllocError;

    /// A copy that may fail for want of memory.
    pub trait Clone: Sized {
        /// A copy of this value.
        fn clone(&self) -> Result<Self, AllocError>;
    }
}

pub mod default {
    //! Values that need an allocator.

    /// Makes a value from an allocator. What fills unused elements in Rattle isn't needed here.
    pub trait MadeWith<A> {
        /// A value.
        fn made_with(alloc: A) -> Self;
    }
}

pub mod snapshot {
    //! Values that only proofs read.
    use super::marker::PhantomData;

    /// What a value was, which takes no memory.
    pub struct Snapshot<T>(PhantomData<T>);

    impl<T> Snapshot<T> {
        /// What this value is now.
        pub fn of(_: &T) -> Snapshot<T> {
            Snapshot(PhantomData)
        }
    }
}

#[cfg(feature = "std")]
pub mod test {
    //! What a test returns.

    /// Why a test fails.
    pub type Fail = std::boxed::Box<dyn core::error::Error>;
}
