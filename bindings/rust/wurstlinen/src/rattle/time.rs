//! The clock.
use super::io::Result;
pub use core::time::*;

/// May read how much processor time the process has taken.
pub trait CpuClock {
    /// The processor time so far.
    fn process_cpu_time(&self) -> Result<Duration>;
}

#[cfg(all(feature = "program", target_os = "linux"))]
impl<T> CpuClock for T {
    fn process_cpu_time(&self) -> Result<Duration> {
        cpu::time()
    }
}

/// A time of the clock.
#[derive(Clone, Copy, Debug)]
pub struct Instant(std::time::Instant);

impl Instant {
    /// The time now.
    pub fn now<R>(_: &R) -> Result<Instant> {
        Ok(Instant(std::time::Instant::now()))
    }

    /// How long ago it was.
    pub fn elapsed<R>(&self, _: &R) -> Result<Duration> {
        Ok(self.0.elapsed())
    }
}

#[cfg(all(feature = "program", target_os = "linux"))]
mod cpu {
    //! The clock of the process, which Rust's std doesn't read.
    #![allow(unsafe_code)]
    use core::ffi::{c_int, c_long};
    use core::time::Duration;
    use std::io::{Error, Result};

    const CLOCK_PROCESS_CPUTIME_ID: c_int = 2;

    #[repr(C)]
    struct Time {
        seconds: c_long,
        nanoseconds: c_long,
    }

    unsafe extern "C" {
        fn clock_gettime(clock: c_int, time: *mut Time) -> c_int;
    }

    pub(super) fn time() -> Result<Duration> {
        let mut time = Time { seconds: 0, nanoseconds: 0 };
        // SAFETY: the call writes the two numbers.
        match unsafe { clock_gettime(CLOCK_PROCESS_CPUTIME_ID, &mut time) } {
            0 => Ok(Duration::new(time.seconds as u64, time.nanoseconds as u32)),
            _ => Err(Error::last_os_error()),
        }
    }
}
