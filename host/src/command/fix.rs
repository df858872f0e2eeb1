//! `vorruda fix`: a routine's text with its mistakes put right as they can be guessed.

use super::files::{read_text, Files};
use super::{Answer, Choice, Status, Subcommand};
use crate::corpus;
use crate::routine::Mistakes;

pub const FIX: Subcommand = Subcommand {
    name: "fix",
    operands: "LISTING",
    count: 1..=1,
    options: &[Choice {
        name: "-o",
        value: Some("FILE"),
        is_required: false,
        summary: "writes it there in place of printing it; the name of the listing itself will do",
    }],
    summary: "prints a listing with its mistakes put right, as far as they can be guessed",
    description: "What `vorruda try` tells as `right` is put in the place of each mistaken line; indentation, blanks \
at a line's end and line ends of Windows go. Read what has changed: a guess may not be what was meant. Mistakes that \
are left are told, and the exit status is then 2.

  vorruda fix my.listing -o my.listing",
    run: |arguments| {
        let name = &arguments.operands[0];
        let text = read_text(name)?;
        let (fixed, left) = fixed(name, &text);
        let changed = lines_changed(&text, &fixed);
        let (text, mut said) = match arguments.value("-o") {
            Some(file) => {
                Files::one(file, &fixed[..]).write()?;
                (format!("{file}: {changed}\n"), String::new())
            }
            None => (fixed, format!("{name}: {changed}\n")),
        };
        let status = match left {
            None => Status::Done,
            Some(left) => {
                said += &format!("{name}, as it is now: {left}\n");
                Status::Unread
            }
        };
        Ok(Answer { text, said, status })
    },
};

/// How often it is tried to put something right: a mistake may show behind another one.
const ROUNDS: usize = 200;

/// The text with its mistakes put right, and those that are left.
fn fixed(name: &str, text: &str) -> (String, Option<Mistakes>) {
    let parse = corpus::parser_of(name.as_ref());
    let mut text = text.to_string();
    let mut rounds = 0;
    loop {
        let Err(mistakes) = parse(&text) else {
            return (text, None);
        };
        let next = put_right(&text, &mistakes);
        rounds += 1;
        if next == text || rounds == ROUNDS {
            return (text, Some(mistakes));
        }
        text = next;
    }
}

/// The text with the right lines in the place of those that have a mistake.
fn put_right(text: &str, mistakes: &Mistakes) -> String {
    let mut lines: Vec<Vec<String>> = text.lines().map(|line| vec![line.to_string()]).collect();
    for told in &mistakes.all {
        let mistake = &told.mistake;
        if let (Some(right), Some(line)) = (&mistake.right, lines.get_mut(mistake.line - 1)) {
            *line = right.clone();
        }
    }
    let lines = lines.concat();
    lines.iter().map(|line| format!("{line}\n")).collect()
}

/// Which lines are no more as they were.
fn lines_changed(before: &str, after: &str) -> String {
    match before == after {
        true => "it has no mistake that can be put right".to_string(),
        false => {
            let kept: Vec<&str> = after.lines().collect();
            let gone = before.lines().filter(|line| !kept.contains(line));
            let gone: Vec<String> = gone.map(|line| format!("\n  {line}")).collect();
            match gone.is_empty() {
                true => "put right".to_string(),
                false => format!("put right; these lines stand no more:{}", gone.concat()),
            }
        }
    }
}
