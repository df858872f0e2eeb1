//! Version 2: shapes have facts. What follows from a member's facts is found once, and one more fact
//! closes them in one pass over the rows.

pub mod facts;
pub mod predecessor;

use self::facts::{bits, Facts};
use self::predecessor::each_predecessor;
use super::checker::{verdict, Covers, Member};
use super::embedding::Images;
use super::job::{Entry, Job};
use super::reader::{Reader, Stopped};
use super::shape::{Located, Shape, CELL, CELLS};
use crate::reference::checker::Start;
use crate::reference::facts::MOST_FACTS;
use crate::reference::version::Version;
use crate::verdict::{Broken, Rule, Verdict};

/// A shape at a state, with the facts listed for it.
pub struct Valued {
    located: Located,
    listed: Facts,
    has_facts: bool,
}

impl Valued {
    /// The facts with all that follows from them.
    #[inline(always)]
    pub fn facts(&self) -> Facts {
        match self.has_facts {
            true => self.listed.closed(),
            false => Facts::NONE,
        }
    }
}

impl Member for Valued {
    #[inline(always)]
    fn located(&self) -> &Located {
        &self.located
    }
}

impl Entry for Valued {
    const VERSION: Version = Version::Two;

    fn read(reader: &mut Reader, variables: u16, states: u16) -> Result<Valued, Stopped> {
        let located = reader.located(variables, states)?;
        let count = reader.number(0, MOST_FACTS as u16)?;
        let mut listed = Facts::NONE;
        let mut last = None;
        for _ in 0..count {
            let relation = reader.number(0, 1)? as u8;
            let i = reader.cell(located.shape.cells)?;
            let place = reader.place;
            let j = reader.cell(located.shape.cells)?;
            let fact = Some([relation, i, j]);
            if fact <= last {
                return reader.refuse_range(place);
            }
            last = fact;
            listed.put(relation, i, j);
        }
        Ok(Valued {
            located,
            listed,
            has_facts: count > 0,
        })
    }
}

/// The verdict on two buffers, 8 only where the job starts with the empty heap.
#[inline(never)]
pub fn check(job: &[u8], certificate: &[u8], start: Start) -> Verdict {
    verdict(job, certificate, start, |job, certificate| {
        let mut covers = Covers::new(certificate);
        covers
            .check_all(job)
            .map_err(|Stopped| covers.reader.refusal)?;
        Ok(covers.counted())
    })
}

impl Covers<'_, Valued> {
    fn check_all(&mut self, job: &Job<Valued>) -> Result<(), Stopped> {
        self.read_members(job)?;
        for bad in &job.forbidden {
            let Located { state, shape } = &bad.located;
            self.check(*state, shape, &bad.listed.closed())?;
        }
        for member in 0..self.members.len() {
            let Located { state, shape } = self.members[member].located;
            let facts = self.members[member].listed.closed();
            if facts.clash() {
                continue;
            }
            for transition in job.leading_to(state) {
                let from = transition.from;
                each_predecessor(
                    &shape,
                    &facts,
                    transition.operation,
                    &mut |before, facts| self.check(from, before, facts),
                )?;
            }
        }
        self.reader.end(10)
    }

    /// Reads the next cover and tests that it holds for a shape at a state, with facts and all that
    /// follows from them.
    fn check(&mut self, state: u8, covered: &Shape, facts: &Facts) -> Result<(), Stopped> {
        self.check_with(state, covered, |member, images| {
            if !member.has_facts || are_among(&member.listed, facts, images) {
                return None;
            }
            Some(Broken {
                rule: Rule::Fact,
                name: lowest_missing(&member.listed, facts, images),
            })
        })
    }
}

/// Whether each fact of a member is among those of what is covered.
fn are_among(listed: &Facts, told: &Facts, images: &Images) -> bool {
    let mut rows = listed.rows().into_iter().zip(told.rows());
    rows.all(|(listed, told)| {
        let mut cells = listed.iter().enumerate();
        cells.all(|(i, &row)| row == 0 || is_among(row, told[image(images, i)], images))
    })
}

/// The same for one row of each.
#[inline(always)]
fn is_among(row: u16, told: u16, images: &Images) -> bool {
    bits(row).all(|j| told >> image(images, j) & 1 == 1)
}

/// The image of a cell, by its number.
#[inline(always)]
fn image(images: &Images, cell: usize) -> usize {
    usize::from(images[usize::from(CELL) + cell] - CELL)
}

/// The lowest cell that a missing fact names first, where one is missing.
#[cold]
fn lowest_missing(listed: &Facts, told: &Facts, images: &Images) -> u8 {
    let is_missing = |&cell: &usize| {
        let mut rows = listed.rows().into_iter().zip(told.rows());
        rows.any(|(listed, told)| {
            let row = listed[cell];
            row != 0 && !is_among(row, told[image(images, cell)], images)
        })
    };
    let cell = (0..CELLS).find(is_missing);
    cell.expect("a fact is missing") as u8
}
