//! Files. A call is passed the runtime.
use super::io::{Read, Result, Write};
use alloc::string::String;
use std::fs;
pub use std::fs::Metadata;

/// An open file.
pub struct File(fs::File);

/// How a file is opened.
pub struct OpenOptions(fs::OpenOptions);

/// The file at this path, for reading.
pub fn open<R>(_: &R, path: &str) -> Result<File> {
    fs::File::open(path).map(File)
}

/// The file at this path, for writing: it is made, or emptied.
pub fn create<R>(_: &R, path: &str) -> Result<File> {
    fs::File::create(path).map(File)
}

/// What is at this path.
pub fn metadata<R>(_: &R, path: &str) -> Result<Metadata> {
    fs::metadata(path)
}

/// The text of the file at this path.
pub fn read_to_string<R>(_: &R, path: &str) -> Result<String> {
    fs::read_to_string(path)
}

impl File {
    /// The file at this path, for reading.
    pub fn open<R>(rt: &R, path: &str) -> Result<File> {
        open(rt, path)
    }
}

impl Read for File {
    fn read(&mut self, bytes: &mut [u8]) -> Result<usize> {
        self.0.read(bytes)
    }
}

impl Write for File {
    fn write(&mut self, bytes: &[u8]) -> Result<usize> {
        self.0.write(bytes)
    }

    fn flush(&mut self) -> Result<()> {
        self.0.flush()
    }
}

impl OpenOptions {
    /// Nothing is allowed yet.
    pub fn new() -> OpenOptions {
        OpenOptions(fs::OpenOptions::new())
    }

    /// Whether it is opened for reading.
    pub fn read(mut self, read: bool) -> OpenOptions {
        self.0.read(read);
        self
    }

    /// Whether it is opened for writing behind its end.
    pub fn append(mut self, append: bool) -> OpenOptions {
        self.0.append(append);
        self
    }

    /// Opens the file at this path.
    pub fn open<R>(&self, _: &R, path: &str) -> Result<File> {
        self.0.open(path).map(File)
    }
}
