//! The rules as plainly as they can be written down, apart from the proved code. Speed is no aim.

pub mod block_list;
pub mod carry;
pub mod certificate;
pub mod checker;
pub mod cover;
pub mod embedding;
pub mod facts;
pub mod heap;
pub mod job;
pub mod join;
pub mod listing;
pub mod number;
pub mod operation;
pub mod predecessor;
pub mod reader;
pub mod ready;
pub mod refused;
pub mod shape;
pub mod stepper;
pub mod tally;
mod value_predecessor;
pub mod version;
