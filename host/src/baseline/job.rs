//! A job, read once, for any way in which a checker keeps shapes.

use super::reader::{Reader, Stopped};
use crate::reference::job::{MOST_FORBIDDEN, MOST_STATES, MOST_TRANSITIONS, MOST_VARIABLES};
use crate::reference::operation::Operation;
use crate::reference::version::Version;

/// No job has this state.
pub const NO_STATE: u8 = u8::MAX;

/// A shape at a state, as a checker keeps it.
pub trait Entry: Sized {
    /// The version of the files that have such entries.
    const VERSION: Version;

    fn read(reader: &mut Reader, variables: u16, states: u16) -> Result<Self, Stopped>;
}

pub struct Transition {
    pub from: u8,
    pub operation: Operation,
    /// The number of the next transition into the same state.
    next: Option<u16>,
}

pub struct Job<S> {
    pub variables: u16,
    pub states: u16,
    pub start: u8,
    transitions: Vec<Transition>,
    /// The number of the first transition into each state.
    first: [Option<u16>; MOST_STATES as usize],
    pub forbidden: Vec<S>,
}

impl<S: Entry> Job<S> {
    pub fn read(reader: &mut Reader) -> Result<Job<S>, Stopped> {
        let version = S::VERSION.number() as u16;
        reader.number(version, version)?;
        let variables = reader.number(1, MOST_VARIABLES as u16)?;
        let states = reader.number(1, MOST_STATES as u16)?;
        let start = reader.number(0, states - 1)? as u8;
        let count = reader.number(0, MOST_TRANSITIONS as u16)?;
        let mut targets = Vec::with_capacity(count.into());
        let mut transitions = Vec::with_capacity(count.into());
        for _ in 0..count {
            transitions.push(Transition {
                from: reader.number(0, states - 1)? as u8,
                operation: reader.operation(S::VERSION, variables)?,
                next: None,
            });
            targets.push(reader.number(0, states - 1)?);
        }
        let mut first = [None; MOST_STATES as usize];
        for number in (0..count).rev() {
            let into = &mut first[usize::from(targets[usize::from(number)])];
            transitions[usize::from(number)].next = into.replace(number);
        }
        let count = reader.number(1, MOST_FORBIDDEN as u16)?;
        let mut forbidden = Vec::with_capacity(count.into());
        for _ in 0..count {
            forbidden.push(S::read(reader, variables, states)?);
        }
        reader.end(5)?;
        Ok(Job {
            variables,
            states,
            start,
            transitions,
            first,
            forbidden,
        })
    }

    /// The transitions that lead to a state, in the job's order.
    pub fn leading_to(&self, state: u8) -> impl Iterator<Item = &Transition> {
        let mut next = self.first[usize::from(state)];
        std::iter::from_fn(move || {
            let transition = &self.transitions[usize::from(next?)];
            next = transition.next;
            Some(transition)
        })
    }
}
