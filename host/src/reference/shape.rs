//! Shapes: parts of heaps, in which variables and links may stand nowhere.

use std::cmp::Ordering;

use super::facts::{closed, is_consistent, Fact};
use super::heap::{Heap, Place};
use super::version::Version;

/// The cells of a shape in a file are at most so many.
pub const MOST_CELLS: u64 = 12;

/// Where each variable and each cell's link stands; nothing is nowhere. And facts on the values of
/// cells, in their order.
#[derive(Clone, Debug, PartialEq, Eq, PartialOrd, Ord, Hash)]
pub struct Shape {
    pub variables: Vec<Option<Place>>,
    pub links: Vec<Option<Place>>,
    pub facts: Vec<Fact>,
}

impl Shape {
    pub fn cells(&self) -> usize {
        self.links.len()
    }

    /// Where an operand stands: 0 is null.
    pub fn place(&self, operand: usize) -> Option<Place> {
        match operand {
            0 => Some(Place::Null),
            variable => self.variables[variable - 1],
        }
    }

    /// A heap seen as a shape, its cells numbered from 0 in their order.
    pub fn of_heap(heap: &Heap) -> Shape {
        let number = |cell: usize| heap.links.range(..cell).count();
        let numbered = |place: &Place| match place {
            Place::Cell(cell) => Some(Place::Cell(number(*cell))),
            other => Some(*other),
        };
        let mut facts = Vec::new();
        for (&i, here) in &heap.values {
            for (&j, there) in &heap.values {
                match here.cmp(there) {
                    Ordering::Less => facts.push(Fact::below(number(i), number(j))),
                    Ordering::Equal => facts.push(Fact::equal(number(i), number(j))),
                    Ordering::Greater => {}
                }
            }
        }
        facts.sort();
        Shape {
            variables: heap.variables.iter().map(numbered).collect(),
            links: heap.links.values().map(numbered).collect(),
            facts,
        }
    }

    /// The shape with the given codes of places, and no facts.
    pub fn of_codes(variables: &[u64], links: &[u64]) -> Shape {
        let places = |codes: &[u64]| codes.iter().copied().map(Place::of_code).collect();
        Shape {
            variables: places(variables),
            links: places(links),
            facts: Vec::new(),
        }
    }

    /// The same shape with these facts.
    pub fn with_facts(self, facts: Vec<Fact>) -> Shape {
        Shape { facts, ..self }
    }

    /// The shape with its facts closed; nothing where a cell is then below itself.
    pub fn settled(self) -> Option<Shape> {
        let facts = closed(&self.facts);
        is_consistent(&facts).then(|| self.with_facts(facts))
    }

    /// The numbers of the shape in a file: cells, places of the variables, links; in version 2 then the
    /// facts behind their number.
    pub fn numbers(&self, version: Version) -> Vec<u64> {
        let codes = self.variables.iter().chain(&self.links);
        let codes = codes.map(|place| place.map_or(0, Place::code));
        let mut numbers: Vec<u64> = std::iter::once(self.cells() as u64).chain(codes).collect();
        if version == Version::Two {
            numbers.push(self.facts.len() as u64);
            numbers.extend(self.facts.iter().flat_map(Fact::numbers));
        }
        numbers
    }
}
