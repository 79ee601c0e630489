//! The proved calls and the independent program, run on the same inputs.

pub mod answer;
pub mod case;
pub mod class;
pub mod product;
pub mod random;
pub mod run;
pub mod search;
pub mod text;
pub mod traffic;
pub mod traffic_limits;
pub mod traffic_smaller;
pub mod trees;
pub mod withdrawal;
