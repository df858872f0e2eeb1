//! Listings to try translators on: right ones, at every limit, damaged, and any text.

mod edges;
mod random;
mod spellings;

pub use edges::edges;
pub use random::{right, Listings};
pub use spellings::spellings;

/// Bytes that stand in no line: blanks other than the one that may, and what is no letter at all.
const FOREIGN: [u8; 7] = [b'\t', b'\r', 0, 11, 127, 128, 255];
