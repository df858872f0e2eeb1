//! The calls of the block list, on lists of growing length, at their front, middle and end.

use std::hint::black_box;

use super::{time, Cost, Work};
use crate::baseline::block_list::{self, through_steps};
use crate::list_library::{self, Calls};
use crate::reference::block_list::chained;
use crate::reference::heap::Heap;
use crate::reference::stepper::{bytes_of, values_of, CELLS, HEAP_BYTES};

const VARIABLES: usize = 4;

/// Going on by so many cells, round all, meets each once.
const STRIDE: usize = 37;

/// Calls that do nothing: what is left is the work around a call.
const NOTHING: Calls = Calls {
    insert: |_, _, _| 0,
    remove: |_, _, _| 0,
    count: |_, _, _| 0,
};

/// One of the three calls, with its n.
#[derive(Clone, Copy)]
pub enum Call {
    Count,
    Insert(u32),
    Remove(u32),
}

impl Call {
    pub fn name(self) -> &'static str {
        match self {
            Call::Count => "count",
            Call::Insert(_) => "insert",
            Call::Remove(_) => "remove",
        }
    }
}

/// A call on a heap, and what it costs once that is counted. A call changes its heap, which is
/// therefore copied ahead of each, on every side alike; what that costs isn't in the figures.
pub struct Case {
    pub call: Call,
    heap: [u8; HEAP_BYTES],
    values: [u32; CELLS],
    length: usize,
    pub instructions: Cost,
    /// Those of the baseline that goes through steps.
    pub through_steps: f64,
}

/// Counts, inserts and removes, in this order.
pub fn cases() -> Vec<Case> {
    let counts = [0, 1, 8, 32, 64].map(|length| (Call::Count, length));
    let inserts = at_places(0, &[0, 1, 8, 32, 63], Call::Insert);
    let removes = at_places(1, &[1, 8, 32, 64], Call::Remove);
    let all = counts.into_iter().chain(inserts).chain(removes);
    all.map(|(call, length)| Case::new(call, length)).collect()
}

/// The calls at the first place, in the middle and at the last of lists of these lengths.
fn at_places(first: usize, lengths: &[usize], call: fn(u32) -> Call) -> Vec<(Call, usize)> {
    let places = lengths.iter().flat_map(|&length| {
        let mut places = vec![first, length.div_ceil(2), length];
        places.dedup();
        places.into_iter().map(move |n| (call(n as u32), length))
    });
    places.collect()
}

/// A heap with a list of so many cells in mixed order, all with values.
pub fn list_of(length: usize) -> Heap {
    let cells = (0..CELLS).map(|index| index * STRIDE % CELLS);
    let cells: Vec<usize> = cells.filter(|&cell| cell < length).collect();
    let mut heap = chained(Heap::empty(VARIABLES), &cells);
    heap.values = cells.iter().map(|&cell| (cell, cell)).collect();
    heap
}

impl Case {
    fn new(call: Call, length: usize) -> Case {
        let heap = list_of(length);
        Case {
            call,
            heap: bytes_of(&heap),
            values: values_of(&heap),
            length,
            instructions: Cost::default(),
            through_steps: 0.0,
        }
    }

    /// The call and the length of its list, for the table.
    pub fn name(&self) -> String {
        let cells = if self.length == 1 { "cell" } else { "cells" };
        let of = format!("{} {cells}", self.length);
        match self.call {
            Call::Count => format!("count {of}"),
            Call::Insert(n) => format!("insert after {n} of {of}"),
            Call::Remove(n) => format!("remove {n} of {of}"),
        }
    }

    /// The call, on a copy of the heap.
    fn by(&self, calls: Calls) -> impl Fn() + '_ {
        move || {
            let (mut heap, mut values) = (self.heap, self.values);
            black_box(match self.call {
                Call::Count => (calls.count)(&mut heap, &mut values, &mut [0]),
                Call::Insert(n) => (calls.insert)(&mut heap, &mut values, n),
                Call::Remove(n) => (calls.remove)(&mut heap, &mut values, n),
            });
        }
    }

    /// What is counted: the work around a call, the proved call, the baseline's and the one through
    /// steps.
    pub fn counted(&self) -> [Box<dyn Fn() + '_>; 4] {
        let by = |calls| -> Box<dyn Fn() + '_> { Box::new(self.by(calls)) };
        [
            by(NOTHING),
            by(list_library::CALLS),
            by(block_list::CALLS),
            by(through_steps::CALLS),
        ]
    }

    /// Takes the counts in, without the work around.
    pub fn set_counts(&mut self, [around, proved, baseline, through_steps]: [f64; 4]) {
        self.instructions = Cost {
            proved: proved - around,
            baseline: baseline - around,
        };
        self.through_steps = through_steps - around;
    }

    /// The time of the proved call and of the baseline's, without the work around.
    pub fn time(&self) -> Cost {
        let cost = |proved, baseline| {
            time::measure(&Work {
                proved: Box::new(self.by(proved)),
                baseline: Box::new(self.by(baseline)),
            })
        };
        let (around, with_it) = (
            cost(NOTHING, NOTHING),
            cost(list_library::CALLS, block_list::CALLS),
        );
        Cost {
            proved: with_it.proved - around.proved,
            baseline: with_it.baseline - around.baseline,
        }
    }
}

#[cfg(test)]
mod tests {
    use super::*;
    use crate::reference::block_list::{count, insert, remove};

    #[test]
    fn every_call_ends_with_success() {
        for case in cases() {
            let after = match case.call {
                Call::Count => count(&case.heap, &case.values).map(|(_, length)| length),
                Call::Insert(n) => insert(&case.heap, &case.values, n).map(|_| case.length),
                Call::Remove(n) => remove(&case.heap, &case.values, n).map(|_| case.length),
            };
            assert_eq!(after, Ok(case.length), "{}", case.name());
        }
    }
}
