//! Lists of calls and sheets: compared with the Rust, and with the programs `replay` and `statement`.

pub mod answers;
pub mod expired;
pub mod orders;
pub mod program;
pub mod script_shrink;
pub mod scripts;
pub mod sheets;
