//! What each module imports.
pub use super::array_vec::WithAllocator;
pub use super::clone::Clone;
pub use super::marker::Drop;
#[cfg(feature = "std")]
pub use super::rt::{AllocGlobal, Eprint, HostRuntime, Print};
pub use super::vec::{CollectIn, Vec};
pub use crate::prove;
pub use alloc::boxed::Box;
pub use alloc::string::String;
// Calls of the type itself, such as `str::from_utf8`, came only with Rust 1.87.
pub use core::str;
