//! The arguments of the process.
use super::alloc::{AllocError, Global};
use super::io::{Error, ErrorKind, Result};
use alloc::string::String;

/// May read the arguments.
pub trait Env {}

impl<T> Env for T {}

/// Arguments that are text.
pub struct Args(std::vec::IntoIter<String>);

/// The arguments. Err: one of them isn't text.
pub fn args<R>(_: &R) -> Result<Args> {
    let mut found = std::vec::Vec::new();
    for argument in std::env::args_os() {
        found.push(argument.into_string().map_err(|_| Error::from(ErrorKind::InvalidData))?);
    }
    Ok(Args(found.into_iter()))
}

impl Args {
    /// The arguments behind so many.
    pub fn skip(mut self, count: usize) -> Args {
        for _ in 0..count {
            self.0.next();
        }
        self
    }

    /// The arguments as a list.
    pub fn collect<T: From<std::vec::Vec<String>>>(self, _: Global) -> core::result::Result<T, AllocError> {
        Ok(self.0.collect::<std::vec::Vec<_>>().into())
    }

    /// The same, where the list's type is named.
    pub fn collect_in<T: From<std::vec::Vec<String>>>(self, alloc: Global) -> core::result::Result<T, AllocError> {
        self.collect(alloc)
    }
}
