//! How long the Rattle takes, beside the Rust: docs/PERFORMANCE.md.

pub mod calls;
mod clock;
pub mod insert;
pub mod names;
pub mod restore;
pub mod rows;
pub mod sheets;
mod timed;
