//! The rules of docs/RULES.md, programmed a second time and by other means than the proved crates.
//!
//! Nothing here was taken from those crates. The comparison runs both on the same inputs, and the speed table uses this
//! library as its yardstick, so it is also written to be fast.

pub mod class;
pub mod fault;
pub mod fields;
pub mod message;
pub mod owners;
pub mod placement;
pub mod queue;
pub mod refusal;
pub mod row;
pub mod run;
pub mod search;
pub mod shop;
pub mod text;
pub mod tree;
pub mod withdrawal;
pub mod worst;
