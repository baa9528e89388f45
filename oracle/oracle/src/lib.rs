//! The reference for the rewrite: 01's records and results, answered by the unchanged Rust.

pub mod blocks;
pub mod emission;
pub mod fronts;
pub mod generate;
pub mod lines;
pub mod list;
pub mod names;
pub mod program;
pub mod records;
pub mod rules;
pub mod stand_in;
pub mod states;
pub mod warnings;
pub mod words;
pub mod worked;

pub use emission::{Outcome, emit};
pub use program::{INPUT_CAP, TEXT_CAP, program};
pub use warnings::Warnings;
