//! The lines of a routine, a listing or transitions, beside what is shown of them.

use super::html::escape;
use crate::routine::Routine;

/// The line that something shown leads to, with the words that say so and its colour.
pub struct End {
    pub state: u64,
    pub words: &'static str,
    pub class: &'static str,
    /// The transition since which it is wrong, where it is.
    pub since: Option<usize>,
}

/// A line of the text.
struct Row {
    state: usize,
    /// Nothing where a line stands for all transitions of its state.
    transition: Option<usize>,
    text: String,
}

/// Something that is shown, with the lines beside it and those marked that it is about.
pub fn beside(routine: &Routine, end: &End, shown: &str) -> String {
    let state = |state: u64| escape(&routine.states[state as usize]);
    let since = end.since.map_or(String::new(), |since| {
        let from = routine.job.transitions[since].from;
        format!(", so since <mark class=\"since\">{}</mark>", state(from))
    });
    format!(
        "<div class=\"beside\">\n<aside>\n<h3>{}</h3>\n{}<p>{} <mark \
         class=\"{}\">{}</mark>{since}.</p>\n</aside>\n<div>\n{shown}</div>\n</div>\n",
        heading(routine),
        text(routine, Some(end)),
        end.words,
        end.class,
        state(end.state),
    )
}

/// The lines by themselves.
pub fn lines(routine: &Routine) -> String {
    format!("<h2>{}</h2>\n{}", heading(routine), text(routine, None))
}

fn heading(routine: &Routine) -> &'static str {
    match routine.statements.is_empty() {
        true => "The transitions",
        false => "The listing",
    }
}

fn text(routine: &Routine, end: Option<&End>) -> String {
    let rows = match routine.statements.is_empty() {
        true => of_transitions(routine),
        false => of_statements(routine),
    };
    let lines = rows.iter().map(|row| line(routine, end, row));
    let lines: String = lines.collect();
    format!("<div class=\"listing\">\n{lines}</div>\n")
}

/// A line, marked if what is shown leads to it or is wrong since then.
fn line(routine: &Routine, end: Option<&End>, row: &Row) -> String {
    let is_since = |since: usize| match row.transition {
        Some(transition) => transition == since,
        None => routine.job.transitions[since].from as usize == row.state,
    };
    let text = escape(&row.text);
    match end {
        Some(end) if end.state as usize == row.state => {
            format!("<mark class=\"{}\">{text}</mark>\n", end.class)
        }
        Some(end) if end.since.is_some_and(is_since) => {
            format!("<mark class=\"since\">{text}</mark>\n")
        }
        _ => format!("<span>{text}</span>\n"),
    }
}

/// The lines of a listing, each with its number.
fn of_statements(routine: &Routine) -> Vec<Row> {
    let lines = routine.states.iter().zip(&routine.statements);
    let row = |(state, (line, statement)): (usize, (&String, &String))| {
        let number = line.strip_prefix("line ").unwrap_or(line);
        Row {
            state,
            transition: None,
            text: format!("{number:>2}  {statement}"),
        }
    };
    lines.enumerate().map(row).collect()
}

/// The transitions, and the states that none leaves.
fn of_transitions(routine: &Routine) -> Vec<Row> {
    let transitions = &routine.job.transitions;
    let numbers = 0..transitions.len();
    let operations: Vec<String> = numbers.map(|number| routine.operation(number)).collect();
    let widest = |texts: &[String]| texts.iter().map(|text| text.chars().count()).max();
    let states = widest(&routine.states).unwrap_or(0);
    let width = widest(&operations).unwrap_or(0);
    let row = |(number, operation): (usize, &String)| {
        let (from, to) = (
            transitions[number].from as usize,
            transitions[number].to as usize,
        );
        let (from_name, to_name) = (&routine.states[from], &routine.states[to]);
        Row {
            state: from,
            transition: Some(number),
            text: format!("{from_name:<states$} {operation:<width$} -> {to_name}"),
        }
    };
    let is_left = |state: &usize| transitions.iter().any(|one| one.from as usize == *state);
    let last = (0..routine.states.len()).filter(|state| !is_left(state));
    let of_last = |state: usize| Row {
        state,
        transition: None,
        text: routine.states[state].clone(),
    };
    let rows = operations.iter().enumerate().map(row);
    rows.chain(last.map(of_last)).collect()
}
