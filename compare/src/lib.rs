//! The published Rust, compiled unchanged; document 01 read on its own beside it; inputs of many kinds for both.

#![forbid(unsafe_code)]

pub mod cases;
pub mod definition;
pub mod document01;
pub mod jobs;
pub mod kit;
pub mod operator_turns;
pub mod operators;
pub mod published;
pub mod queries;
mod rounding;
pub mod wrong_turns;

// The published files find each other by these paths.
use published::{mesh, physics};
