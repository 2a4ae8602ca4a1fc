//! Tests of the library and of the program, and the rigs that they share.
mod core_tests;
mod memory;
mod port;
pub mod rig;
#[cfg(test)]
mod sizes;
pub mod stage;
mod threads;
mod trials;
