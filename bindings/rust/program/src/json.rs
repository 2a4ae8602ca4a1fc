//! The calls of Rattle's `serde_json`, by that of the ecosystem.
pub use serde_json::Value;
use wurstlinen::rattle::alloc::Global;

/// Why a text isn't JSON.
#[derive(Debug)]
pub struct Error(serde_json::Error);

/// What kind of fault it is.
#[derive(Clone, Copy, Debug, PartialEq, Eq)]
pub enum Category {
    /// The text is JSON of another form.
    Data,
    /// The text isn't JSON.
    Syntax,
    /// The text ends too early.
    Eof,
    /// Out of memory.
    Memory,
}

impl Error {
    /// The line of the fault, from 1.
    pub fn line(&self) -> usize {
        self.0.line()
    }

    /// The column of the fault.
    pub fn column(&self) -> usize {
        self.0.column()
    }

    /// What kind of fault it is.
    pub fn classify(&self) -> Category {
        match self.0.classify() {
            serde_json::error::Category::Eof => Category::Eof,
            serde_json::error::Category::Syntax => Category::Syntax,
            _ => Category::Data,
        }
    }
}

/// The value of a text.
pub fn from_slice(_: Global, bytes: &[u8]) -> Result<Value, Error> {
    serde_json::from_slice(bytes).map_err(Error)
}
