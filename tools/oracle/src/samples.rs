//! What is stored in the repository: the samples of the programs, and the cases that they are run on.

pub mod call_samples;
pub mod cases;
pub mod contact_cases;
pub mod row_cases;
mod row_changes;
pub mod script_cases;
pub mod sheet_cases;
pub mod sheet_samples;
pub mod store_cases;
mod store_edges;
mod store_shelf;
