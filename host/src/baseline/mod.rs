//! The calls in plain fast Rust without proofs, the benchmark's baseline: fixed arrays, nothing
//! allocated for a cover, no predecessor made that would be dropped. Also the search tool's engine.
//! [`quicker`] is the checker again, in fewer instructions.

pub mod block_list;
#[cfg(feature = "carrying")]
pub mod carry;
pub mod checker;
pub mod embedding;
mod job;
pub mod join;
pub mod listing;
pub mod number;
pub mod operations;
pub mod predecessor;
pub mod quicker;
mod reader;
pub mod shape;
mod shapes;
pub mod stepper;
pub mod tally;
pub mod values;
