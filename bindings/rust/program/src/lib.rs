//! The program's layers: its arguments and files, and what it prints.
#![forbid(unsafe_code)]

pub mod arguments;
pub mod clap;
pub mod files;
pub mod findings;
pub mod json;
pub mod port;
pub mod reports;
pub mod serving;
