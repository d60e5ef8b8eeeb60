//! A mark-book corrector written a second time, from its rules alone, and the means to compare it with the real one.
//!
//! `reference` follows the definitions and is slow: it makes every chain of a line, sorts them and walks the list.
//! `linked` has the calls of the C library. `cases` makes cases and compares the two. `plain` is the date search as it would
//! be written without proofs, for the bench.

pub mod cases;
pub mod examples;
pub mod interface;
#[cfg(linked)]
pub mod linked;
#[cfg(linked)]
pub mod memory;
pub mod plain;
pub mod random;
pub mod reference;
