//! Stand-ins for three crates that Debian doesn't have: `rtrb` and `left-right` of the ecosystem, and Rattle's `logbook`.
//! They are plain and safe, and use locks. Cargo looks for crates that a feature doesn't need, too, so a crate that
//! names the real ones can't be built from Debian's crates.
pub mod left_right;
pub mod logbook;
pub mod rtrb;
