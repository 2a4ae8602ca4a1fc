//! What a function for C makes of its arguments. C may pass any pointer, null too, for a buffer without bytes.
#![allow(unsafe_code)]

/// The items that C can read at this place.
///
/// # Safety
///
/// There are so many items, and nothing writes them meanwhile.
pub unsafe fn const_slice<'a, T>(at: *const T, count: usize) -> &'a [T] {
    match count {
        0 => &[],
        // SAFETY: that is what the caller promises.
        _ => unsafe { core::slice::from_raw_parts(at, count) },
    }
}

/// The items that C can write at this place.
///
/// # Safety
///
/// There are so many items, and nothing else reads or writes them meanwhile.
pub unsafe fn mut_slice<'a, T>(at: *mut T, count: usize) -> &'a mut [T] {
    match count {
        0 => &mut [],
        // SAFETY: that is what the caller promises.
        _ => unsafe { core::slice::from_raw_parts_mut(at, count) },
    }
}
