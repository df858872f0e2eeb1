//! The heaps that runs of a job reach, explored further each time that is needed.

use super::explore::{Exploration, Extent};
use crate::reference::job::Job;

/// How far heaps may be explored, in several steps, and what was explored so far.
pub struct Heaps<'a> {
    job: &'a Job,
    extents: [Extent; Heaps::EXTENTS],
    explored: Vec<Exploration<'a>>,
}

impl<'a> Heaps<'a> {
    pub const EXTENTS: usize = 4;

    pub fn new(job: &'a Job, extents: [Extent; Heaps::EXTENTS]) -> Heaps<'a> {
        Heaps {
            job,
            extents,
            explored: Vec::new(),
        }
    }

    /// Those of the extent with this number.
    pub fn explored(&mut self, number: usize) -> &mut Exploration<'a> {
        while self.explored.len() <= number {
            let extent = self.extents[self.explored.len()];
            let exploration = Exploration::of_runs(self.job, extent);
            self.explored.push(exploration.widened());
        }
        &mut self.explored[number]
    }

    /// Whether the heaps of an extent may have more cells than those of the one before.
    pub fn has_more_cells(&self, number: usize) -> bool {
        number > 0 && self.extents[number].cells > self.extents[number - 1].cells
    }
}
