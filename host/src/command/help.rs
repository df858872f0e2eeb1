//! What `--help` says, of the command and of a subcommand; and the words that the man page shares.

use super::{find, Answer, Choice, Subcommand, SUBCOMMANDS};
use crate::text::wrapped;

pub const HELP: Subcommand = Subcommand {
    name: "help",
    operands: "[SUBCOMMAND]",
    count: 0..=1,
    options: &[],
    summary: "says what the command does, or a subcommand",
    description: "The same as --help, alone or behind the subcommand.",
    run: |arguments| {
        Ok(Answer::done(match arguments.operands.first() {
            Some(name) => of(find(name)?),
            None => of_all(),
        }))
    },
};

pub const VERSION: &str = env!("CARGO_PKG_VERSION");

/// What the command is, in few words.
pub const TITLE: &str =
    "certifies linked-list routines, and judges certificates by a proved checker";

/// What the command does, in paragraphs.
pub const ABOUT: &str = "\
A routine that works on linked lists is written down as a listing, with what must not be there when it \
ends. `vorruda try` looks for a certificate that no run comes to that, on lists of any length, or draws \
the run that does. The search need not be trusted: the proved checker of the library libvorruda judges \
what it finds, and says accepted, with counts, or refused, with a number and a place.

To begin: `vorruda new NAME` writes a listing to start from, `vorruda try NAME.listing` judges it, \
`vorruda explain` has a paragraph for each word and number that is printed.";

/// What an operand is that several subcommands take.
pub const OPERANDS: [(&str, &str); 4] = [
    (
        "LISTING",
        "a routine as text: a file whose name ends in .listing, or in .routine for one with a title or of \
         transitions, or the name of a routine that `vorruda list` tells",
    ),
    (
        "JOB",
        "a routine in bytes, as `vorruda translate` writes it; where names are to be told, a LISTING",
    ),
    (
        "CERT",
        "a certificate in bytes, as `vorruda try -o` or a search tool writes it",
    ),
    ("DIR", "a folder for files that are written; it is made where it isn't there"),
];

/// What the exit status says.
pub const STATUS: [(&str, &str); 3] = [
    ("0", "accepted, or done"),
    ("1", "refused, or there is no certificate, or no such run"),
    (
        "2",
        "a file can't be read or written, or the command is used wrongly",
    ),
];

/// What holds for all files that are written.
pub const WRITTEN: &str =
    "A file is written whole or not at all: it gets another name first, beside it, \
and is renamed when all of it is there.";

/// The options of the command itself.
pub const OPTIONS: [(&str, &str); 3] = [
    ("--help", "this text; behind a subcommand, more on that"),
    ("--version", "the version"),
    ("--man", "the man page, in roff"),
];

const WIDTH: usize = 80;

/// How the command is used, and where that is told.
pub fn usage() -> String {
    format!("{USAGE}\n`vorruda --help` tells the subcommands")
}

const USAGE: &str = "usage: vorruda SUBCOMMAND ...";

/// How a subcommand is used, in a line.
pub fn usage_of(subcommand: &Subcommand) -> String {
    format!("usage: vorruda {}", form(subcommand))
}

/// A subcommand with its options and operands.
pub fn form(subcommand: &Subcommand) -> String {
    let options = subcommand.options.iter().map(|choice| {
        let form = form_of(choice);
        match choice.is_required {
            true => form,
            false => format!("[{form}]"),
        }
    });
    let words = [subcommand.name.to_string(), subcommand.operands.to_string()];
    let words = words.into_iter().filter(|word| !word.is_empty());
    words.chain(options).collect::<Vec<_>>().join(" ")
}

/// An option with the name of its value.
pub fn form_of(choice: &Choice) -> String {
    match choice.value {
        Some(value) => format!("{} {value}", choice.name),
        None => choice.name.to_string(),
    }
}

/// The help of the command.
pub fn of_all() -> String {
    let rows = SUBCOMMANDS.iter().map(|of| (form(of), of.summary));
    let sections = [
        wrapped(&format!("vorruda - {TITLE}"), WIDTH),
        USAGE.to_string(),
        wrapped(ABOUT, WIDTH),
        format!("Subcommands:\n{}", table(rows)),
        format!("Operands:\n{}", table(OPERANDS.into_iter())),
        format!("Options:\n{}", table(OPTIONS.into_iter())),
        format!("Exit status:\n{}", table(STATUS.into_iter())),
        wrapped(WRITTEN, WIDTH),
    ];
    sections.join("\n\n") + "\n"
}

/// The help of a subcommand.
pub fn of(subcommand: &Subcommand) -> String {
    let name = subcommand.name;
    let mut sections = vec![
        wrapped(&format!("vorruda {name} - {}", subcommand.summary), WIDTH),
        usage_of(subcommand),
        wrapped(subcommand.description, WIDTH),
    ];
    if !subcommand.options.is_empty() {
        let rows = subcommand
            .options
            .iter()
            .map(|of| (form_of(of), of.summary));
        sections.push(format!("Options:\n{}", table(rows)));
    }
    sections.join("\n\n") + "\n"
}

/// Rows of a form and what it is, with one blank column between.
fn table<S: AsRef<str>>(rows: impl Iterator<Item = (S, &'static str)>) -> String {
    let row = |(form, says): (S, &str)| {
        let says = wrapped(says, WIDTH - INDENTED.len()).replace('\n', &format!("\n{INDENTED}"));
        let form = form.as_ref();
        match form.len() + 3 <= INDENTED.len() {
            true => format!("  {form:<width$}{says}", width = INDENTED.len() - 2),
            false => format!("  {form}\n{INDENTED}{says}"),
        }
    };
    rows.map(row).collect::<Vec<_>>().join("\n")
}

/// What stands ahead of the second column.
const INDENTED: &str = "              ";
