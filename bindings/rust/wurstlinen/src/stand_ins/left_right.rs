//! Two copies of a value, one of which is read while the other is written, with the calls of Rattle's `left_right`.
//! Plain and safe; readers share a lock.

use crate::rattle::alloc::{AllocError, Global};
use std::ops::Deref;
use std::sync::{Arc, RwLock};

pub trait Absorb<O>: Sized {
    type State;

    fn absorb_first(&mut self, operation: &O, other: &Self) -> Result<(), AllocError>;
}

pub struct WriteHandle<T, O, R> {
    place: Arc<RwLock<Arc<T>>>,
    shown: Arc<T>,
    // None only while it is shown.
    spare: Option<T>,
    pending: Option<O>,
    _rt: R,
}

impl<T: Absorb<O>, O, R> WriteHandle<T, O, R> {
    pub fn new(_: Global, rt: R, first: T, second: T, _: usize) -> Result<WriteHandle<T, O, R>, AllocError> {
        let shown = Arc::new(first);
        let place = Arc::new(RwLock::new(shown.clone()));
        Ok(WriteHandle { place, shown, spare: Some(second), pending: None, _rt: rt })
    }

    pub fn append(&mut self, operation: O) -> Result<(), AllocError> {
        self.pending = Some(operation);
        Ok(())
    }

    pub fn has_pending_operations(&self) -> bool {
        self.pending.is_some()
    }

    /// Shows what was appended, and waits for readers of the other copy.
    pub fn publish(&mut self) -> Result<(), AllocError> {
        let Some(operation) = self.pending.take() else {
            return Ok(());
        };
        let Some(mut spare) = self.spare.take() else {
            return Err(AllocError);
        };
        if let Err(error) = spare.absorb_first(&operation, &self.shown) {
            self.spare = Some(spare);
            self.pending = Some(operation);
            return Err(error);
        }
        let mut other = std::mem::replace(&mut self.shown, Arc::new(spare));
        *self.place.write().unwrap() = self.shown.clone();
        let mut spare = loop {
            match Arc::try_unwrap(other) {
                Ok(spare) => break spare,
                Err(shared) => other = shared,
            }
            std::thread::yield_now();
        };
        let absorbed = spare.absorb_first(&operation, &self.shown);
        self.spare = Some(spare);
        absorbed
    }

    pub fn published(&self) -> &T {
        &self.shown
    }

    pub fn handle(&self) -> Result<ReadHandle<T>, AllocError> {
        Ok(ReadHandle(self.place.clone()))
    }
}

pub struct ReadHandle<T>(Arc<RwLock<Arc<T>>>);

impl<T> ReadHandle<T> {
    pub fn enter(&mut self) -> Option<ReadGuard<T>> {
        Some(ReadGuard(self.0.read().unwrap().clone()))
    }
}

pub struct ReadGuard<T>(Arc<T>);

impl<T> Deref for ReadGuard<T> {
    type Target = T;

    fn deref(&self) -> &T {
        &self.0
    }
}
