//! Reading numbers in turn, each within its range.

use std::ops::RangeBounds;

use super::facts::{Fact, Relation, MOST_FACTS};
use super::number;
use super::shape::{Shape, MOST_CELLS};
use super::version::Version;
use crate::verdict::Refusal;

/// The bytes of a file, the place reached, and the refusals that are the file's own.
pub struct Reader<'a> {
    bytes: &'a [u8],
    pub place: usize,
    unreadable: u32,
    out_of_range: u32,
}

impl<'a> Reader<'a> {
    pub fn of_job(bytes: &'a [u8]) -> Reader<'a> {
        Reader {
            bytes,
            place: 0,
            unreadable: 3,
            out_of_range: 4,
        }
    }

    pub fn of_certificate(bytes: &'a [u8]) -> Reader<'a> {
        Reader {
            bytes,
            place: 0,
            unreadable: 6,
            out_of_range: 7,
        }
    }

    /// The next number, which is in a range.
    pub fn number(&mut self, range: impl RangeBounds<u64>) -> Result<u64, Refusal> {
        let place = self.place;
        let refused = |number| Refusal::at(number, place);
        let (number, next) = number::read(self.bytes, place).ok_or(refused(self.unreadable))?;
        if !range.contains(&number) {
            return Err(refused(self.out_of_range));
        }
        self.place = next;
        Ok(number)
    }

    /// The next number, which is that of a version.
    pub fn version(&mut self) -> Result<Version, Refusal> {
        self.number(Version::NUMBERS).map(Version::of_number)
    }

    /// The next shape.
    pub fn shape(&mut self, version: Version, variables: u64) -> Result<Shape, Refusal> {
        let cells = self.number(0..=MOST_CELLS)?;
        let mut codes = |count| -> Result<Vec<u64>, Refusal> {
            (0..count).map(|_| self.number(0..=2 + cells)).collect()
        };
        let shape = Shape::of_codes(&codes(variables)?, &codes(cells)?);
        match version {
            Version::One => Ok(shape),
            Version::Two => Ok(shape.with_facts(self.facts(cells)?)),
        }
    }

    /// How many facts there are, and each of them, strictly rising.
    fn facts(&mut self, cells: u64) -> Result<Vec<Fact>, Refusal> {
        let count = self.number(0..=MOST_FACTS)?;
        let mut facts: Vec<Fact> = Vec::new();
        for _ in 0..count {
            let relation = Relation::ALL[self.number(0..=1)? as usize];
            let i = self.number(0..cells)? as usize;
            let place = self.place;
            let j = self.number(0..cells)? as usize;
            let fact = Fact { relation, i, j };
            if facts.last().is_some_and(|&last| last >= fact) {
                return Err(Refusal::at(self.out_of_range, place));
            }
            facts.push(fact);
        }
        Ok(facts)
    }

    /// Nothing may be left; else this refusal falls at the first byte left.
    pub fn end(&self, number: u32) -> Result<(), Refusal> {
        match self.place {
            place if place < self.bytes.len() => Err(Refusal::at(number, place)),
            _ => Ok(()),
        }
    }
}
