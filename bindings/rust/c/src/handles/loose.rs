//! A box as its pointer.
use wurstlinen::rattle::alloc::Global;
use wurstlinen::rattle::prelude::*;

/// A pointer to a value on the heap, which owns it.
pub(crate) struct Loose<T> {
    pub(crate) at: *mut T,
    pub(crate) alloc: Global,
}

impl<T> Loose<T> {
    pub(crate) fn of(boxed: Box<T>) -> Loose<T> {
        Loose { at: Box::into_raw(boxed), alloc: Global }
    }

    pub(crate) fn into_box(self) -> Box<T> {
        // SAFETY: `at` came from a box of this type: the handle's kind says which.
        unsafe { Box::from_raw(self.at) }
    }
}
