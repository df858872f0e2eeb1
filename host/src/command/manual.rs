//! The man page vorruda(1), in roff, of the same text as the help.

use super::help::{form, form_of, ABOUT, OPERANDS, OPTIONS, STATUS, TITLE, VERSION, WRITTEN};
use super::{Subcommand, SUBCOMMANDS};

/// The whole page.
pub fn page() -> String {
    let forms = SUBCOMMANDS.iter().map(synopsis).collect::<String>();
    let subcommands = SUBCOMMANDS.iter().map(subcommand).collect::<String>();
    let sections = [
        ("NAME", format!("vorruda \\- {}\n", escaped(TITLE))),
        ("SYNOPSIS", forms),
        ("DESCRIPTION", paragraphs(ABOUT)),
        ("SUBCOMMANDS", subcommands),
        ("OPERANDS", terms(OPERANDS)),
        ("OPTIONS", terms(OPTIONS)),
        ("EXIT STATUS", terms(STATUS)),
        ("FILES", paragraphs(WRITTEN)),
        ("SEE ALSO", paragraphs(SEE_ALSO)),
    ];
    let sections = sections.map(|(name, text)| format!(".SH {name}\n{text}"));
    format!(
        ".TH VORRUDA 1 \"\" \"vorruda {VERSION}\" \"\"\n{}",
        sections.concat()
    )
}

/// What else is installed.
const SEE_ALSO: &str = "\
Below the prefix of the installation: share/doc/vorruda/ROUTINES.md goes from a routine in C to a \
listing, FORMAT.md has jobs and certificates byte by byte, examples has hosts in C; include/vorruda.h \
has the proved calls, include/vorruda_text.h a text for each refusal.";

fn synopsis(subcommand: &Subcommand) -> String {
    format!(".B vorruda {}\n.br\n", escaped(&form(subcommand)))
}

/// A subcommand as a part of its section.
fn subcommand(subcommand: &Subcommand) -> String {
    let title = format!(".SS vorruda {}\n", escaped(&form(subcommand)));
    let summary = paragraphs(&format!("It {}.", subcommand.summary));
    let options = subcommand
        .options
        .iter()
        .map(|of| term(&form_of(of), of.summary));
    title + &summary + &paragraphs(subcommand.description) + &options.collect::<String>()
}

fn terms<const N: usize>(rows: [(&str, &str); N]) -> String {
    rows.map(|(name, says)| term(name, says)).concat()
}

fn term(name: &str, says: &str) -> String {
    format!(".TP\n.B {}\n{}\n", escaped(name), line(says))
}

/// Paragraphs; those that begin with a blank are shown as they are.
fn paragraphs(text: &str) -> String {
    let paragraph = |text: &str| match text.starts_with(' ') {
        true => format!(
            ".PP\n.nf\n{}\n.fi\n",
            text.lines().map(line).collect::<Vec<_>>().join("\n")
        ),
        false => format!(".PP\n{}\n", line(text)),
    };
    text.split("\n\n").map(paragraph).collect()
}

/// A line of text, with what stands between backquotes in bold.
fn line(text: &str) -> String {
    let mut parts: Vec<String> = text.split('`').map(escaped).collect();
    for part in parts.iter_mut().skip(1).step_by(2) {
        *part = format!("\\fB{part}\\fR");
    }
    let line = parts.concat();
    match line.starts_with(['.', '\'']) {
        true => format!("\\&{line}"),
        false => line,
    }
}

/// Text without what roff takes for its own.
fn escaped(text: &str) -> String {
    text.replace('\\', "\\e").replace('-', "\\-")
}
