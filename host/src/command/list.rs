//! `vorruda list`: the routines that ship.

use super::{Answer, Subcommand};
use crate::corpus;

pub const LIST: Subcommand = Subcommand {
    name: "list",
    operands: "",
    count: 0..=0,
    options: &[],
    summary: "tells the routines that are installed, by name",
    description: "A name can be given in place of a LISTING. Names that begin with wrong_ are of routines \
that go wrong, those with warned_ are certified with a warning, those with beyond_ are right but have no \
certificate. Last come listings that are taken as one, the first and then the second.",
    run: |_| Ok(Answer::done(list()?)),
};

/// The routines of the corpus with their titles.
fn list() -> Result<String, String> {
    let mut text = "Routines to try, by name; or give a file of your own.\n\n".to_string();
    for entry in corpus::read()? {
        text += &format!("  {:<24} {}\n", entry.name, entry.routine.title);
    }
    text += "\nTwo listings to try as one, the first and then the second.\n\n";
    for [first, second] in corpus::joined()? {
        for entry in [first, second] {
            text += &format!("  {:<24} {}\n", entry.name, entry.routine.title);
        }
    }
    Ok(text)
}
