//! Boxes. Rust's `Box` has no stable constructor that returns an error.
use super::alloc::{AllocFailed, Global};
use alloc::alloc::alloc;
use alloc::boxed::Box;
use core::alloc::Layout;

/// A box with this value. Err: there is no memory, and the value is handed back.
#[allow(unsafe_code)]
pub fn new<T>(_: Global, value: T) -> Result<Box<T>, AllocFailed<T>> {
    let layout = Layout::new::<T>();
    if layout.size() == 0 {
        return Ok(Box::new(value));
    }
    // SAFETY: the layout isn't empty, and the memory is that of a box once the value is in it.
    unsafe {
        let place = alloc(layout).cast::<T>();
        if place.is_null() {
            return Err(AllocFailed { value });
        }
        place.write(value);
        Ok(Box::from_raw(place))
    }
}
