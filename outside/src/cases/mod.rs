//! Cases, and what the library and the reference say of them.
//!
//! Each kind of case has a module. Its cases are numbered, and each is made from the number of the draw, the kind and its own number.

#[cfg(linked)]
pub mod lists;
pub mod make;
#[cfg(linked)]
pub mod pages;
#[cfg(linked)]
pub mod positions;
#[cfg(linked)]
pub mod runs;
#[cfg(linked)]
pub mod sets;
pub mod tally;
