//! The block list by the baseline's stepper: each change of the heap is a whole step, with all its
//! tests. Where variable 2 stands is looked up in the bytes.

use super::{told, FEWEST_VARIABLES};
use crate::baseline::operations::Applied;
use crate::baseline::shape::NULL;
use crate::baseline::stepper::step_values;
use crate::list_library::Calls;
use crate::reference::operation::{ASSIGN, DELETE, LOAD, NEW, STORE};
use crate::reference::stepper::{CELLS, HEAP_BYTES};

pub const CALLS: Calls = Calls {
    insert,
    remove,
    count,
};

/// The slots of variables 2 and 3.
const WALKERS: std::ops::Range<usize> = 2..4;

/// Puts a cell into the list after the n-th.
#[inline(never)]
pub fn insert(heap: &mut [u8], values: &mut [u32], n: u32) -> u32 {
    let inserted = with_walkers(heap, values, |steps| steps.insert(n));
    inserted.err().unwrap_or(0)
}

/// Takes the n-th cell out of the list.
#[inline(never)]
pub fn remove(heap: &mut [u8], values: &mut [u32], n: u32) -> u32 {
    let removed = with_walkers(heap, values, |steps| steps.remove(n));
    removed.err().unwrap_or(0)
}

/// How many cells the list has.
#[inline(never)]
pub fn count(heap: &mut [u8], values: &mut [u32], out: &mut [u64]) -> u32 {
    let counted = with_walkers(heap, values, |steps| {
        let length = steps.walk(0)?;
        steps.end_walk()?;
        Ok(length)
    });
    told(counted, out)
}

/// What takes steps.
struct Steps<'a> {
    heap: &'a mut [u8],
    values: &'a mut [u32],
}

/// Takes steps; where they end with a refusal, variables 2 and 3, which alone have moved by then, are
/// put back.
fn with_walkers<T>(
    heap: &mut [u8],
    values: &mut [u32],
    taken: impl FnOnce(&mut Steps) -> Result<T, u32>,
) -> Result<T, u32> {
    if heap.len() != HEAP_BYTES || heap[0] < FEWEST_VARIABLES {
        return Err(13);
    }
    let walkers = [heap[2], heap[3]];
    let mut steps = Steps { heap, values };
    let result = taken(&mut steps);
    if result.is_err() {
        steps.heap[WALKERS].copy_from_slice(&walkers);
    }
    result
}

impl Steps<'_> {
    fn insert(&mut self, n: u32) -> Result<(), u32> {
        if n > self.walk(n)? {
            return Err(28);
        }
        self.take(&[(NEW, 2, 0), (STORE, 2, 1)])?;
        match n {
            0 => self.step(ASSIGN, 1, 2)?,
            // The new cell's link keeps the head, while variable 1 holds what comes after the n-th.
            _ => self.take(&[
                (LOAD, 1, 3),
                (STORE, 3, 2),
                (LOAD, 3, 2),
                (STORE, 2, 1),
                (ASSIGN, 1, 3),
            ])?,
        }
        self.end_walk()
    }

    fn remove(&mut self, n: u32) -> Result<(), u32> {
        let length = self.walk(n.saturating_sub(1))?;
        if n == 0 || n > length {
            return Err(28);
        }
        match n {
            1 => self.take(&[(ASSIGN, 2, 1), (LOAD, 1, 2), (DELETE, 2, 0)])?,
            // The link ahead of the n-th keeps the head, while variable 1 holds what comes after it.
            _ => self.take(&[
                (LOAD, 2, 3),
                (STORE, 3, 1),
                (LOAD, 1, 2),
                (DELETE, 2, 0),
                (LOAD, 2, 3),
                (STORE, 3, 1),
                (ASSIGN, 1, 2),
            ])?,
        }
        self.end_walk()
    }

    /// The length of the list. Variable 2 ends at #, variable 3 at the n-th cell, if there is one.
    fn walk(&mut self, n: u32) -> Result<u32, u32> {
        self.step(ASSIGN, 2, 1)?;
        let mut length = 0;
        while self.heap[2] != NULL {
            if length == CELLS as u32 {
                return Err(29);
            }
            length += 1;
            if length == n {
                self.step(ASSIGN, 3, 2)?;
            }
            self.step(LOAD, 2, 2)?;
        }
        Ok(length)
    }

    fn end_walk(&mut self) -> Result<(), u32> {
        self.take(&[(ASSIGN, 2, 0), (ASSIGN, 3, 0)])
    }

    fn take(&mut self, steps: &[(u64, u32, u32)]) -> Result<(), u32> {
        let mut steps = steps.iter();
        steps.try_for_each(|&(kind, a, b)| self.step(kind, a, b))
    }

    /// One step; the refusal where it doesn't move. Only in a walk, and only at *, is one blocked.
    fn step(&mut self, kind: u64, a: u32, b: u32) -> Result<(), u32> {
        const MOVED: u32 = Applied::Moved as u32;
        const BLOCKED: u32 = Applied::Blocked as u32;
        match step_values(self.heap, self.values, (kind as u32, a, b), 0) {
            MOVED => Ok(()),
            BLOCKED => Err(29),
            refusal => Err(refusal),
        }
    }
}
