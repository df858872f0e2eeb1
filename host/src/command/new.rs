//! `vorruda new`: a listing to start from.

use std::path::Path;

use super::files::Files;
use super::{Answer, Subcommand};

pub const NEW: Subcommand = Subcommand {
    name: "new",
    operands: "NAME",
    count: 1..=1,
    options: &[],
    summary: "writes NAME.listing, a listing to start from",
    description: "It builds any list x, has a place for the routine, a mark at the end, and below that what must \
not be there. It is certified as it stands, so that each change shows. A file of that name is left alone, and \
the exit status is 2.",
    run: |arguments| {
        let name = arguments.operands[0].trim_end_matches(ENDING);
        let file = format!("{name}{ENDING}");
        if Path::new(&file).exists() {
            return Err(format!("{file}: it is there already"));
        }
        Files::one(&file, START).write()?;
        Ok(Answer::done(format!("{file}: now `vorruda try {file}`\n")))
    },
};

const ENDING: &str = ".listing";

/// A list is built, and its first block is taken out.
const START: &str = include_str!("start.listing");
