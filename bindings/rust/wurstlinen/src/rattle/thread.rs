//! Work in threads, which are over at the return.
use std::sync::atomic::AtomicU8;
use std::sync::atomic::Ordering::SeqCst;
use std::sync::{Condvar, Mutex, PoisonError};
pub use std::thread::yield_now;
use std::thread::scope;

/// A token, which `unpark` gives, and for which `park` waits. One thread may park on it.
#[derive(Debug)]
pub struct Parker {
    state: AtomicU8,
    mutex: Mutex<()>,
    given: Condvar,
}

const EMPTY: u8 = 0;
const GIVEN: u8 = 1;
const PARKED: u8 = 2;

impl Parker {
    pub fn new() -> Parker {
        Parker { state: AtomicU8::new(EMPTY), mutex: Mutex::new(()), given: Condvar::new() }
    }

    pub fn park<R>(&self, _: &R) {
        let guard = self.mutex.lock().unwrap_or_else(PoisonError::into_inner);
        // While it is parked, nobody gives the token without the mutex.
        if self.state.compare_exchange(EMPTY, PARKED, SeqCst, SeqCst).is_ok() {
            let is_parked = |_: &mut ()| self.state.load(SeqCst) == PARKED;
            drop(self.given.wait_while(guard, is_parked));
        }
        self.state.store(EMPTY, SeqCst);
    }

    pub fn unpark(&self) {
        if self.state.swap(GIVEN, SeqCst) == PARKED {
            // The thread is asleep once the mutex is free.
            drop(self.mutex.lock());
            self.given.notify_one();
        }
    }
}

/// May start threads.
pub trait Threads {}

impl<T> Threads for T {}

/// Makes both calls, the first in a thread of its own.
pub fn join_mut<R, X: Send, Y, F: FnMut() -> X + Send, G: FnMut() -> Y>(_: &R, f: &mut F, g: &mut G) -> (X, Y) {
    scope(|threads| {
        let first = threads.spawn(f);
        let second = g();
        match first.join() {
            Ok(first) => (first, second),
            Err(panic) => std::panic::resume_unwind(panic),
        }
    })
}

/// Calls `f` at each place, in at most this many threads.
pub fn for_each_mut<R, T: Send, F: Fn(usize, &mut T) + Sync>(_: &R, places: &mut [T], threads: usize, f: &F) {
    let size = places.len().div_ceil(threads).max(1);
    scope(|all| {
        for (chunk, places) in places.chunks_mut(size).enumerate() {
            all.spawn(move || {
                for (i, place) in places.iter_mut().enumerate() {
                    f(chunk * size + i, place);
                }
            });
        }
    });
}
