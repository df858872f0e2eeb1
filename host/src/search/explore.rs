//! The heaps of few cells that a job's runs reach, as far as the rules can tell them apart. Of values
//! only the order counts, so a heap is a shape whose facts tell all of it.

use std::collections::hash_map::Entry;
use std::collections::HashMap;

use super::facts::{classes, renamed, with_any_value};
use super::pool::Pool;
use super::shape::{Located, Shape};
use super::smaller::{without_middle, without_unmet};
use crate::baseline::operations::{self, Applied};
use crate::baseline::shape::{CELL, DANGLING, HELPER, NOWHERE, NULL};
use crate::baseline::values::facts::Facts;
use crate::reference::facts::Fact;
use crate::reference::job::Job;
use crate::reference::operation::{
    Operation, BELOW_VALUE, COPY, EQUAL_VALUE, LARGER, READ, SMALLER,
};
use crate::reference::operation::{DELETE, VALUE_KINDS};

/// How a heap was reached; the numbers are of the heap before and of the transition.
#[derive(Clone, Copy, PartialEq, Eq)]
pub enum Step {
    Start,
    /// By a transition.
    Transition(usize, usize),
    /// As a part of the heap before: what a part satisfies, the whole does.
    Part(usize),
}

/// A heap that is reached, and how.
pub struct Reached {
    pub located: Located,
    pub step: Step,
}

/// How far heaps are explored: how many cells and different values one has, and how many there are.
#[derive(Clone, Copy)]
pub struct Extent {
    pub cells: u8,
    pub values: usize,
    pub heaps: usize,
    /// So many lost cells are thought to be beside a heap where a member is made more general.
    pub lost: usize,
}

/// All heaps reached, in the order they were found.
pub struct Exploration<'a> {
    job: &'a Job,
    pub extent: Extent,
    pub reached: Vec<Reached>,
    pool: Pool,
    known: HashMap<Located, usize>,
}

impl<'a> Exploration<'a> {
    /// Explores the heaps that runs reach, those of shorter runs first.
    pub fn of_runs(job: &'a Job, extent: Extent) -> Exploration<'a> {
        let mut exploration = Exploration {
            job,
            extent,
            reached: Vec::new(),
            pool: Pool::new(job.states as usize),
            known: HashMap::new(),
        };
        exploration.add(job.start as u8, empty_heap(job), Step::Start);
        exploration.explore(Exploration::take_steps);
        exploration
    }

    /// With the heaps of runs also what the rules can't tell apart from them.
    pub fn widened(mut self) -> Exploration<'a> {
        self.explore(|exploration, number| {
            exploration.take_parts(number);
            exploration.take_steps(number);
            exploration.take_forgetful_deletes(number);
        });
        self
    }

    fn explore(&mut self, mut take: impl FnMut(&mut Self, usize)) {
        let mut next = 0;
        while next < self.reached.len() && self.reached.len() < self.extent.heaps {
            take(self, next);
            next += 1;
        }
    }

    /// Adds what the transitions lead to.
    fn take_steps(&mut self, number: usize) {
        let Located { state, shape } = self.reached[number].located;
        for (t, transition) in self.job.transitions.iter().enumerate() {
            if transition.from == u64::from(state) {
                for heap in after(&shape, transition.operation) {
                    self.add(transition.to as u8, heap, Step::Transition(number, t));
                }
            }
        }
    }

    /// Adds the heap without a cell in the middle of a path, or without one that nothing stands at.
    fn take_parts(&mut self, number: usize) {
        let Located { state, shape } = self.reached[number].located;
        for cell in CELL..shape.places.fresh() {
            let without_value = shape.without_value(cell);
            let parts = [
                without_middle(&without_value, cell),
                without_unmet(&without_value, cell),
            ];
            for part in parts.into_iter().flatten() {
                self.add(state, part, Step::Part(number));
            }
        }
    }

    /// Adds what deletes lead to if a link dangles afterwards that didn't stand at the deleted cell:
    /// backwards, deleting forgets where it stood.
    fn take_forgetful_deletes(&mut self, number: usize) {
        let Located { state, shape } = self.reached[number].located;
        for (t, transition) in self.job.transitions.iter().enumerate() {
            if transition.from != u64::from(state) || transition.operation.kind != DELETE {
                continue;
            }
            for heap in after(&shape, transition.operation) {
                for cell in CELL..heap.places.fresh() {
                    let mut forgotten = heap;
                    forgotten.places.set_link_of(cell, DANGLING);
                    self.add(transition.to as u8, forgotten, Step::Transition(number, t));
                }
            }
        }
    }

    fn add(&mut self, state: u8, heap: Shape, step: Step) {
        let Extent { cells, values, .. } = self.extent;
        if heap.places.cells > cells || classes(&heap.facts).len() > values {
            return;
        }
        self.take_in(state, heap, step);
    }

    /// Takes in a heap, or a shape of which it is known that it can't be excluded; gives its number.
    pub fn take_in(&mut self, state: u8, heap: Shape, step: Step) -> usize {
        let shape = canonical(&heap);
        let located = Located { state, shape };
        match self.known.entry(located) {
            Entry::Occupied(entry) => *entry.get(),
            Entry::Vacant(entry) => {
                let number = self.reached.len();
                entry.insert(number);
                self.pool.add(&located, number);
                self.reached.push(Reached { located, step });
                number
            }
        }
    }

    /// A heap reached at the state that satisfies the shape.
    pub fn satisfying(&self, state: u8, shape: &Shape) -> Option<usize> {
        self.pool.satisfying(state, shape)
    }
}

fn empty_heap(job: &Job) -> Shape {
    let mut heap = Shape::EMPTY;
    heap.places.variables[1..=job.variables as usize].fill(DANGLING);
    heap
}

/// The heaps after an operation, none where it isn't enabled or the heap is full; several where it
/// leaves open which value it writes.
pub fn after(heap: &Shape, operation: Operation) -> Vec<Shape> {
    let Operation { kind, a, .. } = operation;
    if VALUE_KINDS.contains(&kind) {
        let told = facts_after(heap, operation).into_iter();
        return told.map(|facts| Shape { facts, ..*heap }).collect();
    }
    let mut after = *heap;
    match operations::apply(&mut after.places, operation) {
        Applied::Moved => {
            if kind == DELETE {
                let deleted = heap.places.variables[a];
                after.facts = heap.without_value(deleted).without_cell(deleted).facts;
            }
            vec![after]
        }
        Applied::Blocked | Applied::Full => Vec::new(),
    }
}

/// A cell that no heap has, for the value that the new one is compared with.
const COMPARED: usize = 15;

/// The facts after an operation on values.
fn facts_after(heap: &Shape, operation: Operation) -> Vec<Facts> {
    let Operation { kind, a, b } = operation;
    let facts = &heap.facts;
    let Some(at_a) = heap.cell_of(a) else {
        return Vec::new();
    };
    if kind == READ {
        return with_any_value(&facts.forgetting(at_a), at_a);
    }
    let Some(at_b) = heap
        .cell_of(b)
        .filter(|&cell| facts.holds(Fact::has_value(cell)))
    else {
        return Vec::new();
    };
    let only_if = |holds: bool| if holds { vec![*facts] } else { Vec::new() };
    let written = |fits: &dyn Fn(&Facts) -> bool| -> Vec<Facts> {
        let compared = facts.with_equal(COMPARED, at_b).forgetting(at_a);
        let all = with_any_value(&compared, at_a).into_iter();
        all.filter(fits)
            .map(|facts| facts.forgetting(COMPARED))
            .collect()
    };
    match kind {
        EQUAL_VALUE => only_if(facts.holds(Fact::equal(at_a, at_b))),
        BELOW_VALUE => only_if(facts.holds(Fact::below(at_a, at_b))),
        COPY => written(&|facts| facts.holds(Fact::equal(at_a, COMPARED))),
        LARGER => written(&|facts| facts.holds(Fact::below(COMPARED, at_a))),
        SMALLER => written(&|facts| facts.holds(Fact::below(at_a, COMPARED))),
        _ => unreachable!("an operation on two values has such a kind"),
    }
}

/// The heap with its cells numbered in the order that following links from the variables meets
/// them; cells that aren't met so come last, in their old order.
fn canonical(heap: &Shape) -> Shape {
    let Shape { places, facts } = heap;
    let mut order = Vec::with_capacity(places.cells.into());
    let starts = places.variables[1..HELPER].iter().copied();
    for start in starts.chain(CELL..places.fresh()) {
        let mut place = start;
        while place >= CELL && !order.contains(&place) {
            order.push(place);
            place = places.link_of(place);
        }
    }
    let number = |cell: u8| {
        let number = order.iter().position(|&code| code == cell);
        number.expect("every cell is in the order")
    };
    let renumbered = |place: u8| match place {
        NOWHERE | NULL | DANGLING => place,
        cell => CELL + number(cell) as u8,
    };
    let mut result = *heap;
    for variable in &mut result.places.variables {
        *variable = renumbered(*variable);
    }
    for (link, &cell) in result.places.links.iter_mut().zip(&order) {
        *link = renumbered(places.link_of(cell));
    }
    result.facts = renamed(facts, |cell| number(CELL + cell as u8));
    result
}

#[cfg(test)]
mod tests {
    use super::*;
    use crate::random::Random;
    use crate::reference::heap::Heap;
    use crate::reference::shape as reference;
    use crate::search::trial::random_operation;

    fn shape_of(heap: &Heap) -> Shape {
        Shape::of_reference(&reference::Shape::of_heap(heap))
    }

    /// The heaps that a step leads to, by the reference; the values are odd, and any up to one above
    /// all may be written.
    fn steps(heap: &Heap, operation: Operation) -> Vec<Heap> {
        let fresh = heap.links.last_key_value().map_or(0, |(cell, _)| cell + 1);
        let highest = heap.values.values().max().map_or(0, |value| value + 1);
        match operation.kind {
            LARGER | SMALLER | READ => (0..=highest)
                .filter_map(|value| heap.after(operation, value))
                .collect(),
            _ => heap.after(operation, fresh).into_iter().collect(),
        }
    }

    /// The same heap with its values odd, in the same order.
    fn with_odd_values(mut heap: Heap) -> Heap {
        let mut all: Vec<usize> = heap.values.values().copied().collect();
        all.sort();
        all.dedup();
        for value in heap.values.values_mut() {
            *value = 2 * all.iter().filter(|&one| one < value).count() + 1;
        }
        heap
    }

    #[test]
    fn steps_agree_with_the_reference() {
        let mut random = Random::new(0x7_5eed);
        let mut moved = [0; 14];
        let mut heap = Heap::empty(3);
        for _ in 0..300_000 {
            let Some(operation) = random_operation(&mut random) else {
                continue;
            };
            let next = steps(&heap, operation);
            let sorted = |shapes: Vec<Shape>| {
                let mut shapes: Vec<Shape> = shapes.iter().map(canonical).collect();
                shapes.sort();
                shapes.dedup();
                shapes
            };
            let ours = sorted(after(&shape_of(&heap), operation));
            let theirs = sorted(next.iter().map(shape_of).collect());
            assert_eq!(ours, theirs, "{operation:?} on {heap:?}");
            if !next.is_empty() {
                heap = with_odd_values(next[random.below(next.len())].clone());
                moved[operation.kind as usize] += 1;
            }
            if heap.links.len() > 12 {
                heap = Heap::empty(3);
            }
        }
        assert!(moved[1..].iter().all(|&count| count > 50), "{moved:?}");
    }
}
