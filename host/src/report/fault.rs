//! What is wrong at the end of a run, in plain words, and what to mark in its last heap.

use std::collections::BTreeSet;

use super::cells::Marks;
use crate::facts_text::facts_text;
use crate::reference::facts::{Fact, Relation};
use crate::reference::heap::{Heap, Place};
use crate::reference::operation::{Operation, LOAD, STORE};
use crate::reference::shape::Shape;
use crate::routine::{Forbids, Origin, Routine};
use crate::search::flat_heap::FlatHeap;
use crate::search::run::WrongRun;
use crate::search::satisfied::images;

/// What is wrong with the last heap of a run.
#[derive(Clone, Debug, PartialEq, Eq)]
pub struct Fault {
    pub heading: String,
    /// What the hooks would do.
    pub meaning: String,
    pub marks: Marks,
}

pub fn fault(routine: &Routine, wrong: &WrongRun) -> Fault {
    fault_of(routine, wrong.forbidden, wrong.run.last())
}

/// What is wrong with a heap that satisfies the forbidden shape with this number.
fn fault_of(routine: &Routine, forbidden: usize, heap: &Heap) -> Fault {
    let bad = &routine.job.forbidden[forbidden];
    let met = Met {
        routine,
        shape: &bad.shape,
        heap,
    };
    let origin = &routine.origins[forbidden];
    match origin.forbids() {
        Forbids::Steps => met.blocked_step(bad.state),
        Forbids::Set(set, variables) => match &set[..] {
            "lost block" => met.lost(met.unmet_from(met.placed())),
            "shared" => met.shared(),
            "not sorted" => met.not_sorted(),
            "no ring" => met.off_ring(&variables.join(", ")),
            _ => met.as_told(origin),
        },
        Forbids::Shape => met.as_told(origin),
    }
}

fn is_below(fact: &Fact) -> bool {
    fact.relation == Relation::Below
}

/// The cells that facts are of, and their values.
fn marks_of(facts: &[Fact]) -> Marks {
    let cells: BTreeSet<usize> = facts.iter().flat_map(|fact| [fact.i, fact.j]).collect();
    Marks {
        values: cells.clone(),
        cells,
        ..Marks::default()
    }
}

/// The number of the step, from 0, since which the marked things are wrong in every heap of the run;
/// nothing where they are so from the start.
pub fn since(routine: &Routine, wrong: &WrongRun, marks: &Marks) -> Option<usize> {
    let shape = &routine.job.forbidden[wrong.forbidden].shape;
    let is_so = |heap: &Heap| {
        let is_met = images(shape, &FlatHeap::of_heap(heap)).is_some();
        is_met && fault_of(routine, wrong.forbidden, heap).marks.holds(marks)
    };
    // The step behind the last heap that isn't wrong has that heap's number.
    wrong.run.heaps.iter().rposition(|heap| !is_so(heap))
}

/// Whether a shape only says that a cell is there: no variable and no link leads to it, and of its own
/// link nothing is said.
pub fn is_loose(shape: &Shape, cell: usize) -> bool {
    let mut places = shape.variables.iter().chain(&shape.links);
    shape.links[cell].is_none() && places.all(|&stands| stands != Some(Place::Cell(cell)))
}

/// Whether following links from some cell of a shape comes back to it.
pub fn has_ring(shape: &Shape) -> bool {
    (0..shape.cells()).any(|start| {
        let mut cell = start;
        (0..shape.cells()).any(|_| match shape.links[cell] {
            Some(Place::Cell(next)) => {
                cell = next;
                next == start
            }
            _ => false,
        })
    })
}

/// A forbidden shape and the heap that satisfies it.
struct Met<'a> {
    routine: &'a Routine,
    shape: &'a Shape,
    heap: &'a Heap,
}

impl Met<'_> {
    /// The variables that the shape places, by number from 0.
    fn placed(&self) -> Vec<usize> {
        let places = self.shape.variables.iter().enumerate();
        let placed = places.filter(|(_, place)| place.is_some());
        placed.map(|(variable, _)| variable).collect()
    }

    fn name(&self, variable: usize) -> &str {
        &self.routine.variables[variable]
    }

    /// The cells met by following links from a variable.
    fn list(&self, variable: usize) -> BTreeSet<usize> {
        let mut cells = BTreeSet::new();
        let mut place = self.heap.variables[variable];
        while let Place::Cell(cell) = place {
            if !cells.insert(cell) {
                break;
            }
            place = self.heap.links[&cell];
        }
        cells
    }

    /// The cells met from the variables that the shape places, from all where it places none.
    fn lists(&self) -> BTreeSet<usize> {
        let mut from = self.placed();
        if from.is_empty() {
            from = (0..self.routine.variables.len()).collect();
        }
        from.iter()
            .flat_map(|&variable| self.list(variable))
            .collect()
    }

    /// The cells that aren't met from some variables.
    fn unmet_from(&self, variables: Vec<usize>) -> BTreeSet<usize> {
        let met: BTreeSet<usize> = variables
            .iter()
            .flat_map(|&variable| self.list(variable))
            .collect();
        let cells: BTreeSet<usize> = self.heap.links.keys().copied().collect();
        &cells - &met
    }

    /// Where the heap has the cells of the shape.
    fn images(&self) -> Vec<usize> {
        let cells: Vec<usize> = self.heap.links.keys().copied().collect();
        let images = images(self.shape, &FlatHeap::of_heap(self.heap));
        let images = images.expect("a run's last heap satisfies the shape");
        images.into_iter().map(|image| cells[image]).collect()
    }

    /// What the shape itself says, as far as there are words for it.
    fn as_told(&self, origin: &Origin) -> Fault {
        let lost = self.lost_cells();
        if !self.shape.facts.is_empty() {
            self.values()
        } else if has_ring(self.shape) {
            self.ring()
        } else if self.shape.links.contains(&Some(Place::Dangling)) {
            self.dangling_link()
        } else if self.shape.variables.contains(&Some(Place::Dangling)) {
            self.dangling_variable()
        } else if !lost.is_empty() {
            self.lost(lost)
        } else {
            self.otherwise(origin)
        }
    }

    /// The cells that the shape only says are there, and that no variable of the routine leads to.
    fn lost_cells(&self) -> BTreeSet<usize> {
        let images = self.images();
        let loose = (0..self.shape.cells()).filter(|&cell| is_loose(self.shape, cell));
        let loose: BTreeSet<usize> = loose.map(|cell| images[cell]).collect();
        &loose & &self.unmet_from((0..self.routine.variables.len()).collect())
    }

    fn off_ring(&self, name: &str) -> Fault {
        Fault {
            heading: format!("{name} is not on a ring"),
            meaning: format!("Following links from {name} does not come back to it.",),
            marks: Marks {
                cells: self.lists(),
                variables: self.placed().into_iter().collect(),
                ..Marks::default()
            },
        }
    }

    fn ring(&self) -> Fault {
        let on_ring = |&cell: &usize| {
            let mut place = self.heap.links[&cell];
            for _ in 0..self.heap.links.len() {
                match place {
                    Place::Cell(next) if next == cell => return true,
                    Place::Cell(next) => place = self.heap.links[&next],
                    _ => return false,
                }
            }
            false
        };
        let cells: BTreeSet<usize> = self.heap.links.keys().copied().filter(on_ring).collect();
        Fault {
            heading: "The list is closed into a ring".to_string(),
            meaning: "The marked links lead back to a block that was lifted already. The hooks \
                      lift the same blocks again and again while the pick count climbs."
                .to_string(),
            marks: Marks {
                links: cells.clone(),
                cells,
                ..Marks::default()
            },
        }
    }

    fn lost(&self, cells: BTreeSet<usize>) -> Fault {
        Fault {
            heading: "A block is lost".to_string(),
            meaning: "No list leads to what is marked any more. Its part of the pattern is never \
                      lifted again, and its memory is never given back."
                .to_string(),
            marks: Marks {
                cells,
                ..Marks::default()
            },
        }
    }

    fn dangling_link(&self) -> Fault {
        let dangles = |cell: &usize| self.heap.links[cell] == Place::Dangling;
        let mut links: BTreeSet<usize> = self.lists().into_iter().filter(dangles).collect();
        if links.is_empty() {
            links = self.heap.links.keys().copied().filter(dangles).collect();
        }
        Fault {
            heading: "A link dangles".to_string(),
            meaning: "The marked link leads to a block that is gone, or was never set. The \
                      controller reads whatever its memory holds by now, and the hooks lift as \
                      that happens to say."
                .to_string(),
            marks: Marks {
                cells: links.clone(),
                links,
                ..Marks::default()
            },
        }
    }

    fn dangling_variable(&self) -> Fault {
        let dangling = |&variable: &usize| self.shape.variables[variable] == Some(Place::Dangling);
        let variables: BTreeSet<usize> = self.placed().into_iter().filter(dangling).collect();
        let names: Vec<&str> = variables
            .iter()
            .map(|&variable| self.name(variable))
            .collect();
        Fault {
            heading: format!("{} dangles", names.join(", ")),
            meaning: "It stands at a block that is gone, or was never set. The controller takes \
                      whatever its memory holds by now for a pattern block."
                .to_string(),
            marks: Marks {
                variables,
                ..Marks::default()
            },
        }
    }

    /// A link is followed or set that isn't there.
    fn blocked_step(&self, state: u64) -> Fault {
        let placed = self.placed();
        let steps = |operation: &Operation| match operation.kind {
            LOAD => placed.contains(&(operation.b - 1)),
            STORE => placed.contains(&(operation.a - 1)),
            _ => false,
        };
        let transitions = self.routine.job.transitions.iter();
        let next = transitions
            .enumerate()
            .filter(|(_, transition)| transition.from == state)
            .find(|(_, transition)| steps(&transition.operation))
            .map(|(number, _)| self.routine.operation(number))
            .unwrap_or_default();
        let names: Vec<&str> = placed.iter().map(|&variable| self.name(variable)).collect();
        let names = names.join(", ");
        let is_null = self.shape.variables.contains(&Some(Place::Null));
        let why = match is_null {
            true => "is null",
            false => "stands at a block that is gone or was never set",
        };
        Fault {
            heading: format!("{next} is next, but {names} has no block"),
            meaning: format!(
                "The operation needs the block at {names}, which {why}. The controller takes \
                 whatever stands there in its memory for a block, or stops."
            ),
            marks: Marks {
                variables: placed.into_iter().collect(),
                ..Marks::default()
            },
        }
    }

    fn shared(&self) -> Fault {
        let mut lists = self
            .placed()
            .into_iter()
            .map(|variable| self.list(variable));
        let first = lists.next().unwrap_or_default();
        let cells = lists.fold(first, |shared, list| &shared & &list);
        Fault {
            heading: "Two lists share a block".to_string(),
            meaning:
                "The marked blocks are in both lists. An edit of one list changes the pattern \
                      of the other."
                    .to_string(),
            marks: Marks {
                cells,
                ..Marks::default()
            },
        }
    }

    /// The facts of the shape, of the cells in the heap that satisfy it.
    fn facts(&self) -> Vec<Fact> {
        let images = self.images();
        let facts = self.shape.facts.iter();
        facts
            .map(|fact| fact.renamed(|cell| images[cell]))
            .collect()
    }

    fn not_sorted(&self) -> Fault {
        let mut below = self.facts();
        below.retain(is_below);
        below.truncate(1);
        Fault {
            heading: "The list is out of order".to_string(),
            meaning:
                "Of the two marked blocks, the one with the larger pick stands before the one \
                      with the smaller. The repeats are woven out of order."
                    .to_string(),
            marks: marks_of(&below),
        }
    }

    /// Values that the shape forbids together.
    fn values(&self) -> Fault {
        let facts = self.facts();
        let cells = self.heap.links.last_key_value();
        let numbers: Vec<usize> = (1..=1 + cells.map_or(0, |(&last, _)| last)).collect();
        let told = facts_text(&facts, &numbers).expect("the shape has facts");
        Fault {
            heading: "Values are as they must not be".to_string(),
            meaning: format!(
                "The values of the marked blocks are as the routine forbids here. By the numbers of \
                 the blocks: {told}."
            ),
            marks: Marks {
                variables: self.placed().into_iter().collect(),
                ..marks_of(&facts)
            },
        }
    }

    fn otherwise(&self, origin: &Origin) -> Fault {
        Fault {
            heading: "A forbidden shape is met".to_string(),
            meaning: format!("What is marked has come about, though {origin}."),
            marks: Marks {
                cells: self.images().into_iter().collect(),
                variables: self.placed().into_iter().collect(),
                ..Marks::default()
            },
        }
    }
}

#[cfg(test)]
mod tests {
    use super::*;
    use crate::corpus;
    use crate::judge::{judge, Ending};
    use crate::reference::job::Located;
    use crate::routine::parse;
    use crate::search::run::Run;

    fn of(name: &str) -> (Fault, Heap) {
        let routine = corpus::find(name).unwrap().routine;
        let Ending::Wrong(wrong) = judge(&routine).ending else {
            panic!("{name} is not wrong");
        };
        (fault(&routine, &wrong), wrong.run.last().clone())
    }

    #[test]
    fn what_is_marked() {
        let (ring, heap) = of("wrong_join_ring");
        assert_eq!(ring.heading, "The list is closed into a ring");
        assert!(!ring.marks.links.is_empty());
        let is_marked = |cell: &usize| match heap.links[cell] {
            Place::Cell(next) => ring.marks.cells.contains(&next),
            _ => false,
        };
        assert!(ring.marks.cells.iter().all(is_marked));

        let (lost, heap) = of("wrong_delete_loses");
        assert_eq!(lost.heading, "A block is lost");
        assert_eq!(lost.marks.cells.len(), heap.links.len());

        let (link, heap) = of("wrong_delete_linked");
        assert_eq!(link.heading, "A link dangles");
        assert_eq!(link.marks.links.len(), 1);
        let dangles = |cell: &usize| heap.links[cell] == Place::Dangling;
        assert!(link.marks.links.iter().all(dangles));

        let (step, _) = of("wrong_append_null");
        assert_eq!(step.heading, "t := l.next is next, but l has no block");
        assert_eq!(step.marks.variables, BTreeSet::from([3]));

        let (shared, _) = of("wrong_copy_shares");
        assert_eq!(shared.heading, "Two lists share a block");
        assert!(!shared.marks.cells.is_empty());
    }

    /// The fault of a run of `reverse` that ends with the list of cells 3, 1, 4, at its first
    /// variable, where a line forbids a shape with these facts.
    fn of_values(text: &str, links: &[u64], facts: &[Fact]) -> Fault {
        let mut routine = corpus::find("reverse").unwrap().routine;
        let count = routine.variables.len();
        let mut places = vec![0; count];
        places[0] = 3;
        let shape = Shape::of_codes(&places, links).with_facts(facts.to_vec());
        routine.job.forbidden = vec![Located { state: 0, shape }];
        routine.origins = vec![Origin {
            line: Some(1),
            text: text.to_string(),
        }];
        let mut last = Heap::empty(count);
        last.variables[0] = Place::Cell(2);
        last.links = [(2, Place::Cell(0)), (0, Place::Cell(3)), (3, Place::Null)].into();
        last.values = [(2, 5), (0, 9), (3, 7)].into();
        let run = Run {
            transitions: Vec::new(),
            heaps: vec![last],
        };
        let wrong = WrongRun { run, forbidden: 0 };
        fault(&routine, &wrong)
    }

    #[test]
    fn values_that_are_marked() {
        let not_sorted = of_values("not sorted: x", &[4, 5, 0], &[Fact::below(2, 1)]);
        assert_eq!(not_sorted.heading, "The list is out of order");
        let two = Marks {
            cells: [0, 3].into(),
            values: [0, 3].into(),
            ..Marks::default()
        };
        assert_eq!(not_sorted.marks, two);

        let facts = [Fact::below(0, 1), Fact::below(2, 1)];
        let forbidden = of_values("x at c, c -> d", &[4, 5, 0], &facts);
        assert_eq!(forbidden.heading, "Values are as they must not be");
        let told = "By the numbers of the blocks: 3 < 1, 4 < 1.";
        assert!(forbidden.meaning.ends_with(told), "{}", forbidden.meaning);
        let all = Marks {
            cells: [0, 2, 3].into(),
            values: [0, 2, 3].into(),
            variables: [0].into(),
            ..Marks::default()
        };
        assert_eq!(forbidden.marks, all);
    }

    /// The fault of a run that ends with x at the first and y at the second of two cells, z at null and
    /// perhaps a third cell that nothing leads to, where this is forbidden.
    fn of_own_shape(forbidden: &str, has_lost_cell: bool) -> Fault {
        let lose = if has_lost_cell {
            "new(z)\nz.next := null\nz := null\n"
        } else {
            "z := null\n"
        };
        let text = format!(
            "-- Two blocks.\nlisting\nnew(y)\ny.next := null\nnew(x)\nx.next := y\n{lose}mark \
             0\n\nforbidden\nmark 0 {forbidden}\n"
        );
        let routine = parse(&text).unwrap();
        let Ending::Wrong(wrong) = judge(&routine).ending else {
            panic!("{forbidden} is not met");
        };
        fault(&routine, &wrong)
    }

    /// A shape with a cell whose link it doesn't tell isn't a lost block, and a cell named as a set
    /// is isn't the set.
    #[test]
    fn a_heading_says_what_is_so() {
        for own in [
            "x at c, c -> d",
            "cell shared",
            "lost -> d",
            "x at c, cell d",
        ] {
            let fault = of_own_shape(own, false);
            assert_eq!(fault.heading, "A forbidden shape is met", "{own}");
            let told = format!("What is marked has come about, though line 11 forbids `{own}`.");
            assert_eq!(fault.meaning, told);
            assert!(!fault.marks.cells.is_empty(), "{own}");
        }
        let lost = of_own_shape("x at c, c -> d, y at d, d -> #, cell e", true);
        assert_eq!(lost.heading, "A block is lost");
        assert_eq!(lost.marks.cells, BTreeSet::from([2]));
        assert_eq!(of_own_shape("lost  block :  x", true), lost);
        let off_ring = of_own_shape("no ring: x", false);
        assert_eq!(off_ring.heading, "x is not on a ring");
        assert_eq!(
            of_own_shape("z at #", false).heading,
            "A forbidden shape is met"
        );
    }

    /// Since which line it is so, of the cells that are wrong in the end.
    #[test]
    fn since_when() {
        for (name, line) in [
            ("wrong_reverse_ring", Some("y.next := y")),
            ("wrong_delete_linked", Some("delete(q)")),
            ("wrong_append_null", Some("l := x")),
            // Before, a new block is in no list either, but it is another one.
            ("wrong_insert_loses", Some("p.next := n")),
        ] {
            let routine = corpus::find(name).unwrap().routine;
            let Ending::Wrong(wrong) = judge(&routine).ending else {
                panic!("{name} is not wrong");
            };
            let marks = fault(&routine, &wrong).marks;
            let step = since(&routine, &wrong, &marks);
            let said = step.map(|step| routine.operation(wrong.run.transitions[step]));
            assert_eq!(said.as_deref(), line, "{name}");
        }
        let text = "-- Set too late.\nlisting\nmark 0\nx := null\n\nforbidden\nmark 0 x at *\n";
        let routine = parse(text).unwrap();
        let Ending::Wrong(wrong) = judge(&routine).ending else {
            panic!("x does not dangle");
        };
        assert_eq!(
            since(&routine, &wrong, &fault(&routine, &wrong).marks),
            None
        );
    }

    /// Whatever is wrong, something is marked.
    #[test]
    fn every_wrong_routine_has_marks() {
        for entry in corpus::read().unwrap() {
            if let Ending::Wrong(wrong) = judge(&entry.routine).ending {
                let marks = fault(&entry.routine, &wrong).marks;
                assert_ne!(marks, Marks::default(), "{}", entry.name);
            }
        }
    }
}
