//! What the prover reads of types, which is nothing here.
pub use core::marker::*;

/// What contracts see of a type.
pub trait Model {}

/// Names what a proof tells apart.
#[derive(Debug)]
pub struct Brand;

/// What may be let go: in Rust that is everything.
pub trait Drop {}

impl<T: ?Sized> Drop for T {}
