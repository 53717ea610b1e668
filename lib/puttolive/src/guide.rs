//! The guide: a chapter on nacks, on tasks, on what a choice costs, and on limits.

#[doc = include_str!("../docs/nacks.md")]
pub mod nacks {}

#[doc = include_str!("../docs/tasks.md")]
pub mod tasks {}

#[doc = include_str!("../docs/costs.md")]
pub mod costs {}

#[doc = include_str!("../docs/limits.md")]
pub mod limits {}
