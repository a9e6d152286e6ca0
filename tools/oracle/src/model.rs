//! The model: what documents 01 and 02 say of rows, stores, calls and sheets. It shares no code with the Rust or the Rattle.

pub mod calls;
pub mod covered;
pub mod lent;
pub mod memory;
pub mod number_set;
pub mod questions;
pub mod rows;
pub mod runner;
pub mod script;
pub mod sheet;
pub mod store;
