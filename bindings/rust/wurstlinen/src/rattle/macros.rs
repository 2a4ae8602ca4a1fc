//! Macros whose text passes an allocator or the runtime.

/// What is proved, tested in a debug build.
#[macro_export]
macro_rules! prove {
    ($($all:tt)*) => { ::core::debug_assert!($($all)*) };
}

/// A text in memory of its own.
#[macro_export]
macro_rules! format_in {
    (in $alloc:expr; $($all:tt)*) => {{
        let _: $crate::rattle::alloc::Global = $alloc;
        ::core::result::Result::<_, $crate::rattle::alloc::AllocError>::Ok(::std::format!($($all)*))
    }};
}

/// A list of these elements.
#[macro_export]
macro_rules! vec_in {
    (in $alloc:expr; $($all:tt)*) => {{
        let _: $crate::rattle::alloc::Global = $alloc;
        let list = $crate::rattle::prelude::Vec::from(::std::vec![$($all)*]);
        ::core::result::Result::<_, $crate::rattle::alloc::AllocError>::Ok(list)
    }};
}

/// Writes a line to standard error.
#[macro_export]
macro_rules! eprintln_to {
    ($rt:expr; $($all:tt)*) => {{
        let _ = &$rt;
        $crate::rattle::io::print(&mut ::std::io::stderr().lock(), ::core::format_args!($($all)*))
    }};
}

/// Writes a line to standard output.
#[macro_export]
macro_rules! println_to {
    ($rt:expr; $($all:tt)*) => {{
        let _ = &$rt;
        $crate::rattle::io::print(&mut ::std::io::stdout().lock(), ::core::format_args!($($all)*))
    }};
}
