//! Threads, and waiting for them. A handle is a runtime that may do so.
pub use std::sync::atomic;
use super::alloc::{AllocError, AllocFailed, Global};
use core::ops::Deref;
use std::sync::atomic::{AtomicUsize, Ordering};
use std::sync::{self, MutexGuard};

/// May wait for other threads.
pub trait Wait {
    /// The rounds of a loop that only a `return` ends.
    fn forever(&self) -> core::iter::Repeat<()> {
        core::iter::repeat(())
    }
}

impl<T> Wait for T {}

/// A value with several owners.
#[derive(Debug)]
pub struct Arc<T>(sync::Arc<T>);

impl<T> Arc<T> {
    pub fn new(_: Global, value: T) -> Result<Arc<T>, AllocFailed<T>> {
        Ok(Arc(sync::Arc::new(value)))
    }

    pub fn get_mut(this: &mut Arc<T>) -> Option<&mut T> {
        sync::Arc::get_mut(&mut this.0)
    }

    pub fn try_clone(this: &Arc<T>) -> Result<Arc<T>, AllocError> {
        Ok(Arc(this.0.clone()))
    }
}

impl<T> Deref for Arc<T> {
    type Target = T;

    fn deref(&self) -> &T {
        &self.0
    }
}

#[derive(Debug)]
pub struct Mutex<T>(sync::Mutex<T>);

impl<T> Mutex<T> {
    pub fn new(value: T) -> Mutex<T> {
        Mutex(sync::Mutex::new(value))
    }

    pub fn lock<R>(&self, _: &R) -> MutexGuard<'_, T> {
        self.0.lock().unwrap_or_else(|poisoned| poisoned.into_inner())
    }

    pub fn into_inner(self) -> T {
        self.0.into_inner().unwrap_or_else(|poisoned| poisoned.into_inner())
    }
}

/// What threads sleep on. To notify it costs no call of the system while nobody sleeps.
#[derive(Debug)]
pub struct Condvar {
    condition: sync::Condvar,
    sleepers: AtomicUsize,
}

impl Condvar {
    pub fn new() -> Condvar {
        Condvar { condition: sync::Condvar::new(), sleepers: AtomicUsize::new(0) }
    }

    pub fn wait_while<'b, R, T, F: FnMut(&mut T) -> bool>(
        &self,
        _: &R,
        guard: MutexGuard<'b, T>,
        is_waiting: F,
    ) -> MutexGuard<'b, T> {
        self.sleepers.fetch_add(1, Ordering::SeqCst);
        let guard = self.condition.wait_while(guard, is_waiting).unwrap_or_else(|poisoned| poisoned.into_inner());
        self.sleepers.fetch_sub(1, Ordering::SeqCst);
        guard
    }

    // Whoever changes what a sleeper waits for has taken the mutex before, and a sleeper is counted while it has that.
    pub fn notify_all(&self) {
        if self.sleepers.load(Ordering::SeqCst) > 0 {
            self.condition.notify_all();
        }
    }
}

pub mod ledger {
    //! Tokens that count in proofs. They take no memory, and their functions do nothing.
    use crate::rattle::marker::{Brand, PhantomData};

    pub trait Ledger {}

    impl Ledger for Brand {}

    pub struct Blank;

    pub struct Book<L>(PhantomData<fn(L)>);

    pub struct Share<L>(PhantomData<fn(L)>);

    impl Blank {
        pub fn new(_: u64) -> Blank {
            Blank
        }

        pub fn open<L>(self) -> (Book<L>, Share<L>) {
            (Book(PhantomData), Share(PhantomData))
        }
    }

    impl<L> Book<L> {
        pub fn add(&mut self, _: &mut Share<L>, _: u64) {}

        pub fn audit(&mut self, _: &mut Share<L>) {}
    }

    impl<L> Share<L> {
        pub fn merge(&mut self, _: Share<L>) {}

        pub fn split_off(&mut self, _: u64, _: u64) -> Share<L> {
            Share(PhantomData)
        }
    }
}
