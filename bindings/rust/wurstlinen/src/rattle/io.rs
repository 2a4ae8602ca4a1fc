//! Reading and writing.
use super::alloc::Global;
use super::vec::Vec;
#[cfg(feature = "program")]
pub use super::stdout::{Writer, writer};
use std::io;
pub use std::io::{BufRead, Error, ErrorKind, Read, Result, Write, empty};

/// A reader with a buffer.
pub struct BufReader<R>(io::BufReader<R>);

impl<R: Read> BufReader<R> {
    /// A reader with an empty buffer.
    pub fn new(_: Global, reader: R) -> Result<BufReader<R>> {
        Ok(BufReader(io::BufReader::new(reader)))
    }
}

impl<R: Read> Read for BufReader<R> {
    fn read(&mut self, bytes: &mut [u8]) -> Result<usize> {
        self.0.read(bytes)
    }
}

impl<R: Read> BufRead for BufReader<R> {
    fn fill_buf(&mut self) -> Result<&[u8]> {
        self.0.fill_buf()
    }

    fn consume(&mut self, count: usize) {
        self.0.consume(count);
    }
}

impl Write for Vec<u8> {
    fn write(&mut self, bytes: &[u8]) -> Result<usize> {
        match self.extend_from_slice(bytes) {
            Ok(()) => Ok(bytes.len()),
            Err(_) => Err(Error::from(ErrorKind::OutOfMemory)),
        }
    }

    fn flush(&mut self) -> Result<()> {
        Ok(())
    }
}

/// Writes a line.
pub fn print(to: &mut impl Write, text: core::fmt::Arguments<'_>) -> Result<()> {
    to.write_fmt(format_args!("{text}\n"))
}
