//! The engine as plain Rust, and what it is tried by.

pub mod engine;
pub mod memory;
pub mod model;
pub mod numbers;
