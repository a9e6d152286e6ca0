//! What asks the unchanged Rust, and what stands in for the files and crates that it names and that are not here.

pub mod calls;
pub mod parts;
pub mod rows;
pub mod shims;
pub mod statement;
pub mod stores;
