//! Standard output of the program.
use super::io::{Error, ErrorKind, Result, Write};
use std::fs::File;
use std::os::fd::{AsFd, BorrowedFd};

/// Standard output, of which nothing is kept back.
pub struct Writer(Result<File>);

/// Standard output. If it is closed, each write fails.
pub fn writer<R>(_: &R) -> Writer {
    Writer(match closed::stdout_was_closed() {
        true => Err(Error::from(ErrorKind::NotConnected)),
        false => file_of(std::io::stdout().as_fd()),
    })
}

fn file_of(stream: BorrowedFd<'_>) -> Result<File> {
    Ok(File::from(stream.try_clone_to_owned()?))
}

impl Write for Writer {
    fn write(&mut self, bytes: &[u8]) -> Result<usize> {
        match &mut self.0 {
            Ok(file) => file.write(bytes),
            Err(error) => Err(Error::from(error.kind())),
        }
    }

    fn flush(&mut self) -> Result<()> {
        Ok(())
    }
}

#[cfg(target_os = "linux")]
mod closed {
    //! Rust opens /dev/null for a standard stream that is closed, before `main`. So whether it was closed is noted
    //! earlier, by a function that the system's loader calls.
    #![allow(unsafe_code)]
    use core::ffi::c_int;
    use core::sync::atomic::{AtomicBool, Ordering};

    const STDOUT: c_int = 1;
    const F_GETFD: c_int = 1;

    static WAS_CLOSED: AtomicBool = AtomicBool::new(false);

    // SAFETY: the loader calls each function of this section once, and it needs nothing that isn't there by then.
    #[used]
    #[unsafe(link_section = ".init_array")]
    static NOTE: extern "C" fn() = note;

    unsafe extern "C" {
        fn fcntl(stream: c_int, command: c_int, ...) -> c_int;
    }

    extern "C" fn note() {
        // SAFETY: the call only reads what the process knows of the stream.
        let is_closed = unsafe { fcntl(STDOUT, F_GETFD) } < 0;
        WAS_CLOSED.store(is_closed, Ordering::Relaxed);
    }

    pub(super) fn stdout_was_closed() -> bool {
        WAS_CLOSED.load(Ordering::Relaxed)
    }
}

#[cfg(not(target_os = "linux"))]
mod closed {
    //! Elsewhere a closed standard output can't be told from /dev/null.
    pub(super) fn stdout_was_closed() -> bool {
        false
    }
}
