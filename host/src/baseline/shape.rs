//! Shapes as codes in fixed arrays.

use super::operations;
use crate::reference::heap::Place;
use crate::reference::shape as reference;

pub const NOWHERE: u8 = 0;
pub const NULL: u8 = 1;
pub const DANGLING: u8 = 2;
/// The code of cell 0.
pub const CELL: u8 = 3;

/// Twelve cells of a shape in a file, and one more for each of two placings.
pub const CELLS: usize = 14;

/// The variable that plays b where kind 4 has one variable.
pub const HELPER: usize = 9;

/// Entries beyond the cells, and the variables that a job hasn't, are 0.
#[derive(Clone, Copy, Debug, PartialEq, Eq, PartialOrd, Ord, Hash)]
pub struct Shape {
    pub cells: u8,
    /// By operand: null stands at #, then the variables, then the helper.
    pub variables: [u8; HELPER + 1],
    pub links: [u8; CELLS],
}

/// A shape at a state.
#[derive(Clone, Copy, Debug, PartialEq, Eq, Hash)]
pub struct Located {
    pub state: u8,
    pub shape: Shape,
}

impl Shape {
    /// No cells, and nothing placed.
    pub const EMPTY: Shape = Shape {
        cells: 0,
        variables: [NULL, 0, 0, 0, 0, 0, 0, 0, 0, 0],
        links: [NOWHERE; CELLS],
    };

    /// The code of the cell that would be added next.
    pub fn fresh(&self) -> u8 {
        CELL + self.cells
    }

    pub fn link_of(&self, cell_code: u8) -> u8 {
        self.links[usize::from(cell_code - CELL)]
    }

    pub fn set_link_of(&mut self, cell_code: u8, place: u8) {
        self.links[usize::from(cell_code - CELL)] = place;
    }

    pub fn add_cell(&mut self, link: u8) {
        self.links[usize::from(self.cells)] = link;
        self.cells += 1;
    }

    /// Takes a cell out at which nothing stands; higher cells move down by one.
    pub fn remove_cell(&mut self, cell_code: u8) {
        let cell = usize::from(cell_code - CELL);
        let cells = usize::from(self.cells);
        self.links.copy_within(cell + 1..cells, cell);
        self.cells -= 1;
        self.links[cells - 1] = NOWHERE;
        for place in self.variables.iter_mut().chain(&mut self.links) {
            if *place > cell_code {
                *place -= 1;
            }
        }
    }

    /// Which codes some variable or link stands at, a bit for each.
    pub fn stood_at(&self) -> u32 {
        let links = &self.links[..usize::from(self.cells)];
        let places = self.variables.iter().chain(links);
        places.fold(0, |mask, &place| mask | 1 << place)
    }

    /// Whether the heap without cells, all variables at *, satisfies it.
    pub fn empty_heap_satisfies(&self) -> bool {
        self.cells == 0 && !self.variables[1..].contains(&NULL)
    }

    pub fn of_reference(shape: &reference::Shape) -> Shape {
        let code = |place: &Option<Place>| place.map_or(NOWHERE, |place| place.code() as u8);
        let mut compact = Shape::EMPTY;
        compact.cells = shape.cells() as u8;
        for (slot, place) in compact.variables[1..].iter_mut().zip(&shape.variables) {
            *slot = code(place);
        }
        for (slot, place) in compact.links.iter_mut().zip(&shape.links) {
            *slot = code(place);
        }
        compact
    }

    /// The same with so many variables for the reference.
    pub fn to_reference(self, variables: usize) -> reference::Shape {
        let codes =
            |places: &[u8]| -> Vec<u64> { places.iter().map(|&code| code.into()).collect() };
        reference::Shape::of_codes(
            &codes(&self.variables[1..=variables]),
            &codes(&self.links[..self.cells.into()]),
        )
    }
}

/// A shape in which nothing stands nowhere is a heap; its cells are the first codes.
impl operations::Heap for Shape {
    fn variable(&self, variable: usize) -> u8 {
        self.variables[variable]
    }

    fn set_variable(&mut self, variable: usize, place: u8) {
        self.variables[variable] = place;
    }

    fn link(&self, cell: u8) -> u8 {
        self.link_of(cell)
    }

    fn set_link(&mut self, cell: u8, place: u8) {
        self.set_link_of(cell, place);
    }

    fn add(&mut self) -> Option<u8> {
        let cell = self.fresh();
        (usize::from(self.cells) < CELLS).then(|| {
            self.add_cell(DANGLING);
            cell
        })
    }

    fn delete(&mut self, cell: u8) {
        for place in self.variables.iter_mut().chain(&mut self.links) {
            if *place == cell {
                *place = DANGLING;
            }
        }
        self.remove_cell(cell);
    }
}
