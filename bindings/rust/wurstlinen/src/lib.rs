//! A controller for RDM (ANSI E1.20): packets, discovery, and a queue that serves several clients on one line.
//!
//! This crate was made from text in Rattle, which is Rust with contracts: a tool deleted the contracts and copied the
//! rest. What the contracts say was proved of that text. The page `What you trust` of the project says what holds of
//! this crate then.
//!
//! - [`Controller`] serves clients one frame at a time. [`Session`] does too, and keeps a log.
//! - [`Agent`] makes one discovery run, for programs with a queue of their own.
//! - [`wire`] reads and writes packets.
//! - [`locked`] and [`lanes`] serve clients in threads: with a mutex, or with ring buffers.
//!
//! Calls that allocate take a [`Global`](rattle::alloc::Global) and return an error if there is no memory.
//!
//! # Features
//!
//! `std` has lines as text, and simulated lines. `threads` has the modules `client`, `locked` and `lanes`. Without both
//! the crate needs `alloc` alone.
#![cfg_attr(not(feature = "std"), no_std)]
#![deny(unsafe_code)]

extern crate alloc;
// The derive of thiserror's first version names `std`.
#[cfg(not(feature = "std"))]
extern crate core as std;

pub mod agent;
#[cfg(feature = "threads")]
pub mod client;
pub mod explain;
pub mod join;
#[cfg(feature = "threads")]
pub mod lanes;
#[cfg(feature = "threads")]
#[doc(hidden)]
#[allow(unsafe_code)]
pub mod ledger;
#[cfg(feature = "std")]
pub mod line;
#[cfg(feature = "threads")]
pub mod locked;
pub mod log;
#[doc(hidden)]
#[allow(unsafe_code)]
pub mod past;
pub mod queue;
pub mod rattle;
#[cfg(feature = "std")]
pub mod scenes;
#[cfg(feature = "threads")]
pub mod stand_ins;
pub mod wire;

#[cfg(feature = "std")]
mod facade;
#[cfg(feature = "std")]
pub use facade::*;
