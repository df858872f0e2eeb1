//! The command `vorruda`: a table of subcommands, each in a file of its own. Every verdict that one of
//! them prints comes from the proved calls.

mod arguments;
#[cfg(feature = "carrying")]
mod carry;
mod check;
mod explain;
mod files;
mod fix;
mod help;
mod join;
mod json;
mod list;
mod manual;
mod new;
mod operand;
mod owed;
mod pack;
mod progress;
mod release;
mod report;
mod run;
mod show;
mod tell;
mod tell_two;
mod translate;
mod try_routine;

use std::io::{self, Write as _};
use std::ops::RangeInclusive;
use std::process::ExitCode;

use crate::text::nearest;
use arguments::Arguments;

/// The subcommands, in the order in which they are told.
const SUBCOMMANDS: &[Subcommand] = &[
    new::NEW,
    fix::FIX,
    try_routine::TRY,
    run::RUN,
    report::REPORT,
    release::RELEASE,
    check::CHECK,
    owed::OWED,
    show::SHOW,
    pack::PACK,
    translate::TRANSLATE,
    join::JOIN,
    #[cfg(feature = "carrying")]
    carry::UP,
    #[cfg(feature = "carrying")]
    carry::DOWN,
    explain::EXPLAIN,
    list::LIST,
    help::HELP,
];

/// What a subcommand is called, takes and does. Help and man page are made of it.
struct Subcommand {
    name: &'static str,
    /// What is given behind its name and its options, as `JOB CERT`.
    operands: &'static str,
    /// How many operands there may be.
    count: RangeInclusive<usize>,
    options: &'static [Choice],
    /// What it does, in a line.
    summary: &'static str,
    /// More on it, in paragraphs with a blank line between them.
    description: &'static str,
    run: fn(&Arguments) -> Result<Answer, String>,
}

/// An option of a subcommand.
struct Choice {
    /// With its dashes.
    name: &'static str,
    /// What its value is called, where it has one.
    value: Option<&'static str>,
    is_required: bool,
    summary: &'static str,
}

/// How a subcommand ends, where it could read all and was used rightly.
#[derive(Clone, Copy, Debug, PartialEq, Eq, PartialOrd, Ord)]
enum Status {
    /// Accepted, or done.
    Done = 0,
    /// Refused, or without a certificate.
    Refused = 1,
    /// Some of the files can't be read, and the others are done.
    Unread = 2,
}

/// What a subcommand prints, and how it ends.
struct Answer {
    text: String,
    /// What goes to standard error beside it.
    said: String,
    status: Status,
}

impl Answer {
    /// With nothing to say beside the text.
    fn new(text: String, status: Status) -> Answer {
        Answer {
            text,
            said: String::new(),
            status,
        }
    }

    fn done(text: String) -> Answer {
        Answer::new(text, Status::Done)
    }
}

/// Runs the command with what is given behind its name.
pub fn run(given: &[String]) -> ExitCode {
    match answer(given) {
        Ok(Answer { text, said, status }) => {
            // Whoever reads may stop early.
            let _ = io::stdout().write_all(text.as_bytes());
            eprint!("{said}");
            ExitCode::from(status as u8)
        }
        Err(what) => {
            eprintln!("{what}");
            ExitCode::from(2)
        }
    }
}

fn answer(given: &[String]) -> Result<Answer, String> {
    let (first, rest) = given.split_first().ok_or_else(help::usage)?;
    match first.as_str() {
        "--help" | "-h" => Ok(Answer::done(help::of_all())),
        "--version" => Ok(Answer::done(format!("vorruda {}\n", help::VERSION))),
        "--man" => Ok(Answer::done(manual::page())),
        name => {
            let subcommand = find(name)?;
            if rest.iter().any(|word| word == "--help" || word == "-h") {
                return Ok(Answer::done(help::of(subcommand)));
            }
            let arguments = Arguments::read(subcommand, rest)?;
            (subcommand.run)(&arguments)
        }
    }
}

/// The subcommand of a name, or what to say where there is none.
fn find(name: &str) -> Result<&'static Subcommand, String> {
    let mut all = SUBCOMMANDS.iter();
    all.find(|subcommand| subcommand.name == name)
        .ok_or_else(|| {
            let known = SUBCOMMANDS.iter().map(|subcommand| subcommand.name);
            let meant = match nearest(name, known)[..] {
                [near, ..] => format!("; did you mean `{near}`?"),
                [] => String::new(),
            };
            format!("vorruda: no subcommand `{name}`{meant}\n{}", help::usage())
        })
}
