//! Jobs: transitions between states, and the shapes forbidden at states.

use super::number;
use super::operation::{range_of_a, range_of_b, Operation};
use super::reader::Reader;
use super::shape::Shape;
use super::version::Version;
use crate::verdict::Refusal;

pub const MOST_VARIABLES: u64 = 8;
pub const MOST_STATES: u64 = 64;
pub const MOST_TRANSITIONS: u64 = 256;
pub const MOST_FORBIDDEN: u64 = 64;

#[derive(Clone, Copy, Debug, PartialEq, Eq)]
pub struct Transition {
    pub from: u64,
    pub operation: Operation,
    pub to: u64,
}

/// A shape at a state: forbidden by a job, or a member of a certificate.
#[derive(Clone, Debug, PartialEq, Eq)]
pub struct Located {
    pub state: u64,
    pub shape: Shape,
}

#[derive(Clone, Debug, PartialEq, Eq)]
pub struct Job {
    pub version: Version,
    pub variables: u64,
    pub states: u64,
    pub start: u64,
    pub transitions: Vec<Transition>,
    pub forbidden: Vec<Located>,
}

impl Job {
    /// Reads a job that fills the bytes.
    pub fn read(bytes: &[u8]) -> Result<Job, Refusal> {
        let mut reader = Reader::of_job(bytes);
        let version = reader.version()?;
        let variables = reader.number(1..=MOST_VARIABLES)?;
        let states = reader.number(1..=MOST_STATES)?;
        let start = reader.number(0..states)?;
        let count = reader.number(0..=MOST_TRANSITIONS)?;
        let transitions = (0..count)
            .map(|_| Transition::read(&mut reader, version, variables, states))
            .collect::<Result<_, _>>()?;
        let count = reader.number(1..=MOST_FORBIDDEN)?;
        let forbidden = (0..count)
            .map(|_| Located::read(&mut reader, version, variables, states))
            .collect::<Result<_, _>>()?;
        reader.end(5)?;
        Ok(Job {
            version,
            variables,
            states,
            start,
            transitions,
            forbidden,
        })
    }

    /// The same job with only those of its forbidden shapes that have these numbers.
    pub fn forbidding(&self, numbers: &[usize]) -> Job {
        let forbidden = numbers.iter().map(|&number| self.forbidden[number].clone());
        Job {
            forbidden: forbidden.collect(),
            ..self.clone()
        }
    }

    /// The bytes of the job.
    pub fn bytes(&self) -> Vec<u8> {
        let mut numbers = vec![self.forbidden.len() as u64];
        let located = self.forbidden.iter();
        numbers.extend(located.flat_map(|bad| bad.numbers(self.version)));
        let forbidden = numbers.into_iter().flat_map(number::bytes_of);
        let mut bytes = self.bytes_ahead();
        bytes.extend(forbidden);
        bytes
    }

    /// Those ahead of the number of its forbidden shapes.
    pub fn bytes_ahead(&self) -> Vec<u8> {
        let mut numbers = vec![self.version.number(), self.variables, self.states];
        numbers.extend([self.start, self.transitions.len() as u64]);
        numbers.extend(self.transitions.iter().flat_map(Transition::numbers));
        numbers.into_iter().flat_map(number::bytes_of).collect()
    }
}

impl Transition {
    fn read(
        reader: &mut Reader,
        version: Version,
        variables: u64,
        states: u64,
    ) -> Result<Transition, Refusal> {
        let from = reader.number(0..states)?;
        let kind = reader.number(version.kinds())?;
        let a = reader.number(range_of_a(kind, variables))? as usize;
        let b = reader.number(range_of_b(kind, variables))? as usize;
        let to = reader.number(0..states)?;
        Ok(Transition {
            from,
            operation: Operation { kind, a, b },
            to,
        })
    }

    /// The numbers of the transition in a file.
    pub fn numbers(&self) -> [u64; 5] {
        let Operation { kind, a, b } = self.operation;
        [self.from, kind, a as u64, b as u64, self.to]
    }
}

impl Located {
    pub fn read(
        reader: &mut Reader,
        version: Version,
        variables: u64,
        states: u64,
    ) -> Result<Located, Refusal> {
        Ok(Located {
            state: reader.number(0..states)?,
            shape: reader.shape(version, variables)?,
        })
    }

    pub fn numbers(&self, version: Version) -> Vec<u64> {
        [vec![self.state], self.shape.numbers(version)].concat()
    }
}
