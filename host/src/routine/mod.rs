//! Routines as text: a listing, or transitions with names for states and variables; and the
//! forbidden shapes below.
//!
//! ```text
//! -- Empties the list at x.
//! listing
//! x := null
//! while any
//! new(y)
//! y.next := x
//! x := y
//! end
//! mark 0
//!
//! forbidden
//! mark 0    no list: x
//! mark 0    x at c, c -> d, d -> d
//! steps
//! ```
//!
//! The lines below `listing`, to a blank one or to `forbidden`, go to the proved library as they
//! stand. The same routine as transitions:
//!
//! ```text
//! -- Empties the list at x.
//! variables x y
//! start     empty
//!
//! empty     x := null     -> loop
//! loop      new(y)        -> loop.1
//! loop.1    y.next := x   -> loop.2
//! loop.2    x := y        -> loop
//! loop      skip          -> end
//!
//! forbidden
//! end       no list: x
//! end       x at c, c -> d, d -> d
//! steps
//! ```
//!
//! An operation is `a = b`, `a != b`, `a := b`, `a := b.next`, `a.next := b`, `new(a)`, `delete(a)`
//! or `skip`, which is `null = null`. Transitions, but no listing, also have those on the values of
//! cells: the tests `a.num = b.num` and `a.num < b.num`, `a.num := b.num`, `a.num :=> b.num` and
//! `a.num :=< b.num`, which set a's value to b's, to any larger or to any smaller one, and `read(a)`,
//! which sets it to any.
//!
//! A forbidden shape is a list of `x at p`, `c -> p` and `cell c`, where x is a variable, c a cell and
//! p a cell, `#` or `*`, and of facts on values: `c < d`, `c = d`, chains of these as `c < d = e`, and
//! `value c`, c has one. Or it is one of the ready sets of [`sets`]. What says nothing of values is a
//! job of version 1.

mod forbidden_text;
mod foreign;
mod layout;
mod listing;
mod listing_mistake;
mod mistake;
mod mistakes;
mod names;
mod operation_text;
mod parse;
mod ready;
pub mod sets;
mod shape_text;
mod short_names;
mod words;

pub use mistake::Mistake;
pub use mistakes::{Mistakes, Told};
pub use parse::{parse, parse_listing};

use std::fmt;
use std::ops::RangeInclusive;

use crate::reference::job::Job;
use crate::reference::operation::{Operation, ASSIGN, DELETE, DIFFERENT, EQUAL, LOAD, NEW, STORE};
use crate::reference::operation::{BELOW_VALUE, COPY, EQUAL_VALUE, LARGER, READ, SMALLER};

/// A job with the names that a person gave.
#[derive(Clone, Debug)]
pub struct Routine {
    /// The first comment.
    pub title: String,
    pub variables: Vec<String>,
    pub states: Vec<String>,
    /// The line of the listing that begins at each state but the last; none where the routine is
    /// of transitions.
    pub statements: Vec<String>,
    pub job: Job,
    /// Where each of the job's forbidden shapes comes from.
    pub origins: Vec<Origin>,
    /// What is allowed but may be misspelt.
    pub warnings: Vec<Mistake>,
}

/// The line that forbids a shape.
#[derive(Clone, Debug, PartialEq, Eq)]
pub struct Origin {
    /// From 1; none where the shape is forbidden because the text forbids nothing.
    pub line: Option<usize>,
    /// What stands there behind the state.
    pub text: String,
}

/// What a line forbids, by its form.
#[derive(Clone, Debug, PartialEq, Eq)]
pub enum Forbids<'a> {
    /// `steps`
    Steps,
    /// A ready set, as `lost block: x y`, by its name and its variables.
    Set(String, Vec<&'a str>),
    /// A shape of one's own.
    Shape,
}

impl Origin {
    pub fn forbids(&self) -> Forbids<'_> {
        match self.text.split_once(':') {
            Some((set, variables)) => {
                let set: Vec<&str> = set.split_whitespace().collect();
                Forbids::Set(set.join(" "), variables.split_whitespace().collect())
            }
            None if self.text == "steps" => Forbids::Steps,
            None => Forbids::Shape,
        }
    }
}

impl fmt::Display for Origin {
    fn fmt(&self, f: &mut fmt::Formatter) -> fmt::Result {
        match self.line {
            Some(line) => write!(f, "line {line} forbids `{}`", self.text),
            None => write!(f, "`{}` is forbidden", self.text),
        }
    }
}

impl Routine {
    /// A job as it is, with numbers for names.
    pub fn of_job(job: Job) -> Routine {
        let numbered = |of: &str, numbers: RangeInclusive<u64>| -> Vec<String> {
            numbers.map(|number| format!("{of}{number}")).collect()
        };
        let origin = |number| Origin {
            line: None,
            text: format!("shape {number}"),
        };
        Routine {
            title: "A job without names.".to_string(),
            variables: numbered("v", 1..=job.variables),
            states: numbered("state ", 0..=job.states - 1),
            statements: Vec::new(),
            origins: (0..job.forbidden.len()).map(origin).collect(),
            warnings: Vec::new(),
            job,
        }
    }

    /// The numbers of the forbidden shapes, those of one line together.
    pub fn forbidding_lines(&self) -> Vec<Vec<usize>> {
        let mut lines: Vec<Vec<usize>> = Vec::new();
        for (number, origin) in self.origins.iter().enumerate() {
            match lines
                .iter_mut()
                .find(|line| self.origins[line[0]] == *origin)
            {
                Some(line) => line.push(number),
                None => lines.push(vec![number]),
            }
        }
        lines
    }

    /// The same routine with only those of its forbidden shapes that have these numbers.
    pub fn forbidding(&self, numbers: &[usize]) -> Routine {
        let origins = numbers.iter().map(|&number| self.origins[number].clone());
        Routine {
            job: self.job.forbidding(numbers),
            origins: origins.collect(),
            ..self.clone()
        }
    }

    /// The name of an operand.
    pub fn operand(&self, operand: usize) -> &str {
        match operand {
            0 => "null",
            variable => &self.variables[variable - 1],
        }
    }

    /// A transition's operation as it stands in the text.
    pub fn operation(&self, transition: usize) -> String {
        let transition = &self.job.transitions[transition];
        let statement = self.statement(transition.from);
        match (transition.operation, statement) {
            (NULL_IS_NULL, None) => SKIP.to_string(),
            (NULL_IS_NULL, Some(statement)) => statement.to_string(),
            (operation, _) => words(operation, |operand| self.operand(operand)),
        }
    }

    /// A state as a person finds it: a mark with its line, or else the state's name.
    pub fn place(&self, state: u64) -> String {
        let name = &self.states[state as usize];
        match self.mark(state) {
            Some(mark) => format!("{mark} ({name})"),
            None => name.clone(),
        }
    }

    /// The mark of the listing at a state.
    pub fn mark(&self, state: u64) -> Option<&str> {
        let statement = self.statement(state);
        statement.filter(|statement| statement.starts_with("mark"))
    }

    /// The line of the listing that begins at a state.
    pub fn statement(&self, state: u64) -> Option<&str> {
        self.statements.get(state as usize).map(String::as_str)
    }
}

/// What always goes on, and its name in a routine of transitions.
pub const NULL_IS_NULL: Operation = Operation {
    kind: EQUAL,
    a: 0,
    b: 0,
};
const SKIP: &str = "skip";

/// An operation in the table's form, with names for its operands.
pub fn words<'a>(operation: Operation, name: impl Fn(usize) -> &'a str) -> String {
    let (a, b) = (name(operation.a), name(operation.b));
    match operation.kind {
        EQUAL => format!("{a} = {b}"),
        DIFFERENT => format!("{a} != {b}"),
        ASSIGN => format!("{a} := {b}"),
        LOAD => format!("{a} := {b}.next"),
        STORE => format!("{a}.next := {b}"),
        NEW => format!("new({a})"),
        DELETE => format!("delete({a})"),
        EQUAL_VALUE => format!("{a}.num = {b}.num"),
        BELOW_VALUE => format!("{a}.num < {b}.num"),
        COPY => format!("{a}.num := {b}.num"),
        LARGER => format!("{a}.num :=> {b}.num"),
        SMALLER => format!("{a}.num :=< {b}.num"),
        READ => format!("read({a})"),
        _ => unreachable!("an operation has a kind of the table"),
    }
}
