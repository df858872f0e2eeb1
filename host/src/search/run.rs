//! Runs, and how far was looked for them.

use std::fmt;

use crate::reference::heap::Heap;
use crate::text::counted;

/// A run from the start.
#[derive(Clone, Debug)]
pub struct Run {
    /// The numbers of the transitions, in their order.
    pub transitions: Vec<usize>,
    /// The empty heap, and the heap after each transition. A cell keeps its number, and none is
    /// given twice.
    pub heaps: Vec<Heap>,
}

/// A run to a heap that satisfies a forbidden shape.
#[derive(Clone, Debug)]
pub struct WrongRun {
    pub run: Run,
    /// The number of the forbidden shape.
    pub forbidden: usize,
}

impl Run {
    pub fn last(&self) -> &Heap {
        self.heaps.last().expect("a run has a heap")
    }
}

/// The heaps that were looked at.
#[derive(Clone, Copy, Debug, PartialEq, Eq)]
pub struct Bound {
    pub heaps: usize,
    /// All heaps are among them that are reached by runs with so many cells at a time.
    pub cells: usize,
    /// Different values in a heap; 0 where the job has none.
    pub values: usize,
}

impl fmt::Display for Bound {
    fn fmt(&self, f: &mut fmt::Formatter) -> fmt::Result {
        let heaps = counted(self.heaps, "heap");
        let cells = counted(self.cells, "cell");
        write!(f, "{heaps}, all those of runs with up to {cells}")?;
        if self.values > 0 {
            write!(f, " and {} different values", self.values)?;
        }
        Ok(())
    }
}
