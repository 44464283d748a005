//! The differential run: the original Rust (`rust`) and the library (`library`) on the same inputs.
pub mod casts;
pub mod check;
pub mod input;
pub mod kept;
pub mod library;
pub mod lines;
pub mod lost;
pub mod random;
pub mod report;
pub mod rust;
pub mod sheet;
pub mod smaller;
