//! The end of the process.
pub use std::process::*;

/// May end the process.
pub trait Abort {}

impl<T> Abort for T {}
