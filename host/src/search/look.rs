//! Looking forward: the first heaps that a job's runs reach. Those of runs with fewer cells come first,
//! and of these those of shorter runs.

use std::collections::{BTreeSet, HashSet};
use std::rc::Rc;

use super::flat_heap::{value_in, Blocked, FlatHeap, MOST_CELLS};
use super::run::{Bound, Run, WrongRun};
use super::satisfied::images;
use crate::reference::heap::Heap;
use crate::reference::job::{Job, Transition};
use crate::reference::operation::{LARGER, NEW, READ, SMALLER};

/// How far to look: how many different values a heap has, and how many heaps there are.
#[derive(Clone, Copy)]
pub struct Distance {
    pub values: usize,
    pub heaps: usize,
}

/// How a heap was reached.
#[derive(Clone, Copy)]
struct Step {
    /// The number of the heap before.
    before: usize,
    transition: usize,
    /// Of the value that is written, if the transition leaves one open.
    slot: usize,
}

/// A heap that is reached.
struct Reached {
    state: u64,
    heap: Rc<FlatHeap>,
    /// Nothing for the empty heap at the start.
    step: Option<Step>,
}

/// A transition that some run comes to and that can't be carried out, and no other from its state.
pub struct Stop {
    pub transition: usize,
    pub blocked: Blocked,
    /// The run up to there.
    pub run: Run,
}

/// The heaps that were looked at.
pub struct Look<'a> {
    job: &'a Job,
    /// For each state, the transitions that are taken from there.
    leaving: Vec<Vec<usize>>,
    reached: Vec<Reached>,
    known: HashSet<(u64, Rc<FlatHeap>)>,
    distance: Distance,
    /// Heaps of one cell more than all those that are looked at as yet.
    waiting: Vec<Reached>,
    /// How many cells a heap has at most that is looked at as yet.
    cells: usize,
    /// The first heap at which a run stops, for each state, with the transition.
    stopped: Vec<(usize, usize, Blocked)>,
}

impl<'a> Look<'a> {
    pub fn forward(job: &'a Job, distance: Distance) -> Look<'a> {
        Look::along(job, (0..job.transitions.len()).collect(), distance)
    }

    /// Looks at the runs by some transitions.
    pub fn along(job: &'a Job, transitions: BTreeSet<usize>, distance: Distance) -> Look<'a> {
        let mut leaving = vec![Vec::new(); job.states as usize];
        for number in transitions {
            leaving[job.transitions[number].from as usize].push(number);
        }
        let mut look = Look {
            job,
            leaving,
            reached: Vec::new(),
            known: HashSet::new(),
            distance,
            waiting: Vec::new(),
            cells: 0,
            stopped: Vec::new(),
        };
        let empty = FlatHeap::empty(job.variables as usize);
        look.add(job.start, Rc::new(empty), None);
        let mut next = 0;
        while look.reached.len() < distance.heaps {
            if next < look.reached.len() {
                look.take_steps(next);
                next += 1;
            } else if look.cells < MOST_CELLS {
                look.take_waiting();
            } else {
                return look;
            }
        }
        // Not all heaps of so many cells were looked at.
        look.cells = look.cells.saturating_sub(1);
        look
    }

    /// Goes on to heaps of one cell more.
    fn take_waiting(&mut self) {
        self.cells += 1;
        for Reached { state, heap, step } in std::mem::take(&mut self.waiting) {
            self.add(state, heap, step);
        }
    }

    /// Adds what the transitions lead to from a heap, or that the run stops there.
    fn take_steps(&mut self, number: usize) {
        let Reached {
            state, ref heap, ..
        } = self.reached[number];
        let heap = Rc::clone(heap);
        let mut goes_on = false;
        let mut hindered = None;
        for transition in self.leaving[state as usize].clone() {
            let Transition { operation, to, .. } = self.job.transitions[transition];
            match heap.after(operation) {
                Ok(after) => {
                    goes_on = true;
                    for (slot, heap) in after {
                        let step = Step {
                            before: number,
                            transition,
                            slot,
                        };
                        self.add(to, Rc::new(heap), Some(step));
                    }
                }
                Err(Blocked::Fails) => {}
                Err(blocked) => hindered = hindered.or(Some((number, transition, blocked))),
            }
        }
        let is_told = |&(other, ..): &(usize, usize, Blocked)| self.reached[other].state == state;
        if !goes_on && !self.stopped.iter().any(is_told) {
            self.stopped.extend(hindered);
        }
    }

    fn add(&mut self, state: u64, heap: Rc<FlatHeap>, step: Option<Step>) {
        if heap.cells() > self.cells {
            self.waiting.push(Reached { state, heap, step });
        } else if heap.values() <= self.distance.values
            && self.known.insert((state, Rc::clone(&heap)))
        {
            self.reached.push(Reached { state, heap, step });
        }
    }

    pub fn bound(&self) -> Bound {
        Bound {
            heaps: self.reached.len(),
            cells: self.cells,
            values: self.distance.values,
        }
    }

    /// The first run to a state, to a heap of several cells if there is one.
    pub fn run_to(&self, state: u64) -> Option<Run> {
        let first_of = |cells: usize| {
            let mut reached = self.reached.iter();
            reached.position(|reached| reached.state == state && reached.heap.cells() >= cells)
        };
        Some(self.run(first_of(2).or(first_of(0))?))
    }

    /// Where runs stop since a variable dangles, is null or has no value, a state once.
    pub fn stops(&self) -> Vec<Stop> {
        let stop = |&(number, transition, blocked): &(usize, usize, Blocked)| Stop {
            transition,
            blocked,
            run: self.run(number),
        };
        self.stopped.iter().map(stop).collect()
    }

    /// The first run that meets what is forbidden, if there is one.
    pub fn wrong_run(&self) -> Option<WrongRun> {
        self.reached
            .iter()
            .enumerate()
            .find_map(|(number, reached)| {
                let mut forbidden = self.job.forbidden.iter();
                let forbidden = forbidden.position(|bad| {
                    bad.state == reached.state && images(&bad.shape, &reached.heap).is_some()
                })?;
                let run = self.run(number);
                Some(WrongRun { run, forbidden })
            })
    }

    /// The run by which a heap was reached, as the reference steps.
    fn run(&self, number: usize) -> Run {
        let mut steps = Vec::new();
        let mut number = number;
        while let Some(step) = self.reached[number].step {
            steps.push(step);
            number = step.before;
        }
        let mut heaps = vec![Heap::empty(self.job.variables as usize)];
        let mut fresh = 0;
        for step in steps.iter().rev() {
            let before = &heaps[heaps.len() - 1];
            let operation = self.job.transitions[step.transition].operation;
            let choice = match operation.kind {
                LARGER | SMALLER | READ => value_in(step.slot, before),
                _ => fresh,
            };
            let after = before.after(operation, choice);
            heaps.push(after.expect("a step of an explored run is enabled"));
            fresh += usize::from(operation.kind == NEW);
        }
        Run {
            transitions: steps.iter().rev().map(|step| step.transition).collect(),
            heaps: counted_from_1(heaps),
        }
    }
}

/// The same heaps with their values in the same order, counted from 1.
fn counted_from_1(mut heaps: Vec<Heap>) -> Vec<Heap> {
    let values: BTreeSet<usize> = heaps
        .iter()
        .flat_map(|heap| heap.values.values().copied())
        .collect();
    for value in heaps.iter_mut().flat_map(|heap| heap.values.values_mut()) {
        *value = values.range(..=*value).count();
    }
    heaps
}

#[cfg(test)]
mod tests {
    use super::*;
    use crate::routine::{parse_listing, Routine};

    /// Builds lists at x, y and z, walks three blocks on from x, and links that one to itself.
    fn long() -> Routine {
        let mut text = String::new();
        for list in ["x", "y", "z"] {
            text +=
                &format!("{list} := null\nwhile any\nnew(t)\nt.next := {list}\n{list} := t\nend\n");
        }
        text += &"x != null\nx := x.next\n".repeat(3);
        text += "x != null\nx.next := x\nmark 0\n\nforbidden\nmark 0 ring: x\n";
        parse_listing(&text).unwrap()
    }

    fn look(job: &Job, heaps: usize) -> Look<'_> {
        Look::forward(job, Distance { values: 0, heaps })
    }

    /// Those of runs with fewer cells come first, and it is told up to how many there are all.
    #[test]
    fn heaps_in_their_order() {
        let routine = long();
        let all = look(&routine.job, 3_000);
        let mut most = 0;
        let cells = |number: usize| {
            all.run(number)
                .heaps
                .iter()
                .map(|heap| heap.links.len())
                .max()
        };
        for number in 0..all.reached.len() {
            let cells = cells(number).expect("a run has a heap");
            assert!(cells >= most, "{cells} after {most}");
            most = cells;
        }
        assert_eq!(all.bound().cells, most - 1);
        let wrong = all.wrong_run().expect("the ring is met");
        assert_eq!(wrong.run.last().links.len(), 4);
    }

    /// A run by few of the transitions is found among fewer heaps.
    #[test]
    fn along_some_transitions() {
        let routine = long();
        let job = &routine.job;
        let wrong = look(job, 3_000).wrong_run().expect("the ring is met");
        assert!(look(job, 300).wrong_run().is_none());
        let transitions: BTreeSet<usize> = wrong.run.transitions.iter().copied().collect();
        let distance = Distance {
            values: 0,
            heaps: 300,
        };
        let along = Look::along(job, transitions, distance);
        let found = along.wrong_run().expect("the ring is met");
        assert_eq!(found.run.transitions, wrong.run.transitions);
    }

    /// A test that fails ends a run without a stop, as does a cell too many.
    #[test]
    fn what_is_a_stop() {
        let stops = |text: &str| -> Vec<Blocked> {
            let text = format!("{text}mark 0\n\nforbidden\nmark 0 cell c\n");
            let routine = parse_listing(&text).unwrap();
            let stops = look(&routine.job, 1_000).stops();
            stops.into_iter().map(|stop| stop.blocked).collect()
        };
        assert_eq!(stops("x := null\nx != null\n"), []);
        assert_eq!(stops("while any\nnew(x)\nend\n"), []);
        assert_eq!(stops("new(y)\nx := y.next\n"), [Blocked::Link(1)]);
        assert_eq!(stops("x := null\ndelete(x)\n"), [Blocked::Variable(1)]);
        let two = "if any\nif x = null\nend\nend\ny := null\ny.next := y\n";
        assert_eq!(stops(two), [Blocked::Variable(1), Blocked::Variable(2)]);
    }
}
