//! Shapes with their facts, as the search holds them.

use super::facts::listed;
use crate::baseline::shape::{Shape as Places, CELL};
use crate::baseline::values::facts::Facts;
use crate::reference::shape as reference;

/// Where variables and links stand, and facts on the values of cells with all that follows from them.
/// Without facts it is a shape of version 1.
#[derive(Clone, Copy, Debug, PartialEq, Eq, PartialOrd, Ord, Hash)]
pub struct Shape {
    pub places: Places,
    pub facts: Facts,
}

/// A shape at a state.
#[derive(Clone, Copy, Debug, PartialEq, Eq, Hash)]
pub struct Located {
    pub state: u8,
    pub shape: Shape,
}

impl From<Places> for Shape {
    fn from(places: Places) -> Shape {
        let facts = Facts::NONE;
        Shape { places, facts }
    }
}

impl Shape {
    /// No cells, and nothing placed.
    pub const EMPTY: Shape = Shape {
        places: Places::EMPTY,
        facts: Facts::NONE,
    };

    pub fn of_reference(shape: &reference::Shape) -> Shape {
        Shape {
            places: Places::of_reference(shape),
            facts: Facts::of(shape.facts.iter().copied()).closed(),
        }
    }

    /// The cell that a variable stands at, by its number.
    pub fn cell_of(&self, variable: usize) -> Option<usize> {
        let code = self.places.variables[variable];
        (code >= CELL).then(|| usize::from(code - CELL))
    }

    /// Whether a fact is about a cell.
    pub fn has_fact(&self, cell: u8) -> bool {
        self.facts.named() >> (cell - CELL) & 1 == 1
    }

    /// Without a cell that no fact is about and at which nothing stands.
    pub fn without_cell(mut self, cell: u8) -> Shape {
        self.places.remove_cell(cell);
        self.facts = self.facts.without_cell((cell - CELL).into());
        self
    }

    /// Without the value of a cell.
    pub fn without_value(mut self, cell: u8) -> Shape {
        self.facts = self.facts.forgetting((cell - CELL).into());
        self
    }

    /// The same with so many variables for the reference, all facts told.
    pub fn to_reference(self, variables: usize) -> reference::Shape {
        let places = self.places.to_reference(variables);
        places.with_facts(self.facts.all().collect())
    }

    /// The same with few facts, from which all others follow.
    pub fn to_file(self, variables: usize) -> reference::Shape {
        let places = self.places.to_reference(variables);
        places.with_facts(listed(&self.facts))
    }
}
