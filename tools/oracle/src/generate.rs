//! What is tried: bytes, names, cards, rows, stores, lists of calls and sheets; valid, broken on purpose, and damaged.

pub mod cards;
pub mod inputs;
pub mod names;
pub mod row_build;
pub mod script_build;
pub mod script_pairs;
pub mod script_stores;
pub mod sheet_build;
pub mod store_break;
pub mod store_build;
pub mod store_damage;
