//! The C library. `wurstlinen.h` declares each call.

mod calls;
mod handles;
mod heap;
