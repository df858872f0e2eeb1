//! How far long work is, for a person at a terminal.

use std::io::{self, IsTerminal as _};

/// Shows how far it is, in a line that is written over; nothing where no person looks.
pub fn show(what: &str) {
    if io::stderr().is_terminal() {
        eprint!("\r\x1b[K{what}");
    }
}

/// Takes the line away.
pub fn clear() {
    show("");
}
