//! The corrector by its definitions.

pub mod chains;
pub mod dates;
pub mod grammar;
pub mod page;
pub mod position;
pub mod reader;
pub mod score;
