//! Heaps of any size and what the operations do to them (source 000, Appendix C; document 02,
//! Wish 6).

use std::collections::BTreeMap;

use super::operation::{Operation, ASSIGN, DELETE, DIFFERENT, EQUAL, LOAD, NEW, STORE};
use super::operation::{BELOW_VALUE, COPY, EQUAL_VALUE, LARGER, READ, SMALLER};

/// Where a variable or a link stands.
#[derive(Clone, Copy, Debug, PartialEq, Eq, PartialOrd, Ord, Hash)]
pub enum Place {
    /// `#`
    Null,
    /// `*`
    Dangling,
    Cell(usize),
}

use Place::{Cell, Dangling, Null};

impl Place {
    /// The place with a code; 0 is nowhere.
    pub fn of_code(code: u64) -> Option<Place> {
        match code {
            0 => None,
            1 => Some(Null),
            2 => Some(Dangling),
            _ => Some(Cell(code as usize - 3)),
        }
    }

    pub fn code(self) -> u64 {
        match self {
            Null => 1,
            Dangling => 2,
            Cell(cell) => 3 + cell as u64,
        }
    }
}

/// The cells with their links, the variables, and the values of the cells that have one.
#[derive(Clone, Debug, PartialEq, Eq, PartialOrd, Ord, Hash)]
pub struct Heap {
    pub variables: Vec<Place>,
    pub links: BTreeMap<usize, Place>,
    pub values: BTreeMap<usize, usize>,
}

impl Heap {
    /// No cells, every variable dangling: where each run begins.
    pub fn empty(variables: usize) -> Heap {
        Heap {
            variables: vec![Dangling; variables],
            links: BTreeMap::new(),
            values: BTreeMap::new(),
        }
    }

    /// Where an operand stands: 0 is null.
    pub fn place(&self, operand: usize) -> Place {
        match operand {
            0 => Null,
            variable => self.variables[variable - 1],
        }
    }

    /// The value of the cell at a place, if there is a cell and it has one.
    fn value(&self, place: Place) -> Option<usize> {
        match place {
            Cell(cell) => self.values.get(&cell).copied(),
            _ => None,
        }
    }

    /// The heap after an operation, nothing where it isn't enabled. `choice` is what the operation
    /// leaves open: new takes that cell, which isn't in the heap; larger, smaller and read write
    /// that value.
    pub fn after(&self, operation: Operation, choice: usize) -> Option<Heap> {
        let Operation { kind, a, b } = operation;
        let (at_a, at_b) = (self.place(a), self.place(b));
        let neither_dangles = at_a != Dangling && at_b != Dangling;
        match kind {
            EQUAL => (neither_dangles && at_a == at_b).then(|| self.clone()),
            DIFFERENT => (neither_dangles && at_a != at_b).then(|| self.clone()),
            ASSIGN => (at_b != Dangling).then(|| self.with_variable(a, at_b)),
            LOAD => match at_b {
                Cell(cell) if self.links[&cell] != Dangling => {
                    Some(self.with_variable(a, self.links[&cell]))
                }
                _ => None,
            },
            STORE => match at_a {
                Cell(cell) if at_b != Dangling => Some(self.with_link(cell, at_b)),
                _ => None,
            },
            NEW => Some(
                self.with_link(choice, Dangling)
                    .with_variable(a, Cell(choice)),
            ),
            DELETE => match at_a {
                Cell(cell) => Some(self.without(cell)),
                _ => None,
            },
            _ => self.after_on_values(operation, choice),
        }
    }

    /// The same for the kinds that test or write values.
    fn after_on_values(&self, operation: Operation, choice: usize) -> Option<Heap> {
        let Operation { kind, a, b } = operation;
        let Cell(at_a) = self.place(a) else {
            return None;
        };
        if kind == READ {
            return Some(self.with_value(at_a, choice));
        }
        let of_b = self.value(self.place(b))?;
        match kind {
            EQUAL_VALUE => (*self.values.get(&at_a)? == of_b).then(|| self.clone()),
            BELOW_VALUE => (*self.values.get(&at_a)? < of_b).then(|| self.clone()),
            COPY => Some(self.with_value(at_a, of_b)),
            LARGER => (choice > of_b).then(|| self.with_value(at_a, choice)),
            SMALLER => (choice < of_b).then(|| self.with_value(at_a, choice)),
            _ => unreachable!("an operation has a kind of the table"),
        }
    }

    fn with_variable(&self, variable: usize, place: Place) -> Heap {
        let mut heap = self.clone();
        heap.variables[variable - 1] = place;
        heap
    }

    fn with_link(&self, cell: usize, place: Place) -> Heap {
        let mut heap = self.clone();
        heap.links.insert(cell, place);
        heap
    }

    fn with_value(&self, cell: usize, value: usize) -> Heap {
        let mut heap = self.clone();
        heap.values.insert(cell, value);
        heap
    }

    /// The heap without a cell: its value goes with it, and what stood at it dangles.
    pub fn without(&self, cell: usize) -> Heap {
        let mut heap = self.clone();
        heap.links.remove(&cell);
        heap.values.remove(&cell);
        for place in heap.variables.iter_mut().chain(heap.links.values_mut()) {
            if *place == Cell(cell) {
                *place = Dangling;
            }
        }
        heap
    }
}

#[cfg(test)]
mod tests {
    use super::*;

    fn heap(variables: &[Place], links: &[(usize, Place)]) -> Heap {
        Heap {
            variables: variables.to_vec(),
            links: links.iter().copied().collect(),
            values: BTreeMap::new(),
        }
    }

    fn after(heap: &Heap, kind: u64, a: usize, b: usize) -> Option<Heap> {
        heap.after(Operation { kind, a, b }, 7)
    }

    /// x at cell 0, y at cell 1, z dangling; 0 links to 1, 1 to null, 2 to 1.
    fn sample() -> Heap {
        heap(
            &[Cell(0), Cell(1), Dangling],
            &[(0, Cell(1)), (1, Null), (2, Cell(1))],
        )
    }

    #[test]
    fn tests_compare_places_that_do_not_dangle() {
        let before = sample();
        assert_eq!(after(&before, EQUAL, 1, 1), Some(before.clone()));
        assert_eq!(after(&before, EQUAL, 0, 0), Some(before.clone()));
        assert_eq!(after(&before, EQUAL, 1, 2), None);
        assert_eq!(after(&before, DIFFERENT, 1, 0), Some(before.clone()));
        assert_eq!(after(&before, DIFFERENT, 2, 2), None);
        for kind in [EQUAL, DIFFERENT] {
            assert_eq!(after(&before, kind, 3, 3), None);
            assert_eq!(after(&before, kind, 0, 3), None);
        }
    }

    #[test]
    fn assignments_move_one_variable() {
        let before = sample();
        let links = [(0, Cell(1)), (1, Null), (2, Cell(1))];
        let at = |places: &[Place]| Some(heap(places, &links));
        assert_eq!(
            after(&before, ASSIGN, 3, 1),
            at(&[Cell(0), Cell(1), Cell(0)])
        );
        assert_eq!(after(&before, ASSIGN, 1, 0), at(&[Null, Cell(1), Dangling]));
        assert_eq!(after(&before, ASSIGN, 1, 3), None);
        assert_eq!(
            after(&before, LOAD, 1, 1),
            at(&[Cell(1), Cell(1), Dangling])
        );
        assert_eq!(after(&before, LOAD, 1, 2), at(&[Null, Cell(1), Dangling]));
        assert_eq!(after(&before, LOAD, 1, 3), None);
    }

    #[test]
    fn following_a_dangling_link_is_blocked() {
        let before = heap(&[Cell(0)], &[(0, Dangling)]);
        assert_eq!(after(&before, LOAD, 1, 1), None);
    }

    #[test]
    fn links_are_set_at_cells_only() {
        let before = sample();
        let expected = heap(
            &before.variables,
            &[(0, Cell(1)), (1, Cell(0)), (2, Cell(1))],
        );
        assert_eq!(after(&before, STORE, 2, 1), Some(expected));
        assert_eq!(after(&before, STORE, 1, 3), None);
        assert_eq!(after(&before, STORE, 3, 1), None);
        let at_null = heap(&[Null], &[]);
        assert_eq!(after(&at_null, STORE, 1, 0), None);
    }

    #[test]
    fn new_and_delete() {
        let added = heap(&[Cell(7)], &[(7, Dangling)]);
        assert_eq!(after(&Heap::empty(1), NEW, 1, 0), Some(added.clone()));
        assert_eq!(after(&added, DELETE, 1, 0), Some(Heap::empty(1)));
        let expected = heap(
            &[Cell(0), Dangling, Dangling],
            &[(0, Dangling), (2, Dangling)],
        );
        assert_eq!(after(&sample(), DELETE, 2, 0), Some(expected));
        assert_eq!(after(&sample(), DELETE, 3, 0), None);
        assert_eq!(after(&heap(&[Null], &[]), DELETE, 1, 0), None);
    }
    /// x at cell 0 with value 5, y at cell 1 with value 7, z at cell 2 without one, u at null.
    fn valued() -> Heap {
        let cells = [(0, Null), (1, Null), (2, Null)];
        let mut heap = heap(&[Cell(0), Cell(1), Cell(2), Null], &cells);
        heap.values = [(0, 5), (1, 7)].into();
        heap
    }

    fn with(kind: u64, a: usize, b: usize, value: usize) -> Option<BTreeMap<usize, usize>> {
        let after = valued().after(Operation { kind, a, b }, value)?;
        assert_eq!(
            (&after.variables, &after.links),
            (&valued().variables, &valued().links)
        );
        Some(after.values)
    }

    #[test]
    fn values_are_compared_where_both_are_there() {
        let same = Some(valued().values);
        assert_eq!(with(EQUAL_VALUE, 1, 1, 0), same);
        assert_eq!(with(EQUAL_VALUE, 1, 2, 0), None);
        assert_eq!(with(BELOW_VALUE, 1, 2, 0), same);
        assert_eq!(with(BELOW_VALUE, 2, 1, 0), None);
        assert_eq!(with(BELOW_VALUE, 1, 1, 0), None);
        for kind in [EQUAL_VALUE, BELOW_VALUE] {
            for (a, b) in [(1, 3), (3, 1), (3, 3), (1, 4), (4, 1)] {
                assert_eq!(with(kind, a, b, 0), None);
            }
        }
    }

    #[test]
    fn values_are_written_to_cells() {
        let written = |cell, value| {
            let mut values = valued().values;
            values.insert(cell, value);
            Some(values)
        };
        assert_eq!(with(COPY, 3, 2, 0), written(2, 7));
        assert_eq!(with(COPY, 1, 1, 0), written(0, 5));
        assert_eq!(with(COPY, 1, 3, 0), None);
        assert_eq!(with(COPY, 4, 1, 0), None);
        assert_eq!(with(LARGER, 3, 1, 6), written(2, 6));
        assert_eq!(with(LARGER, 1, 1, 6), written(0, 6));
        assert_eq!(with(LARGER, 3, 1, 5), None);
        assert_eq!(with(SMALLER, 3, 1, 4), written(2, 4));
        assert_eq!(with(SMALLER, 3, 1, 5), None);
        for kind in [LARGER, SMALLER] {
            assert_eq!(with(kind, 1, 3, 6), None);
            assert_eq!(with(kind, 4, 1, 6), None);
        }
        assert_eq!(with(READ, 3, 0, 9), written(2, 9));
        assert_eq!(with(READ, 4, 0, 9), None);
    }

    #[test]
    fn a_value_goes_with_its_cell() {
        assert_eq!(with_deleted(1), [(1, 7)].into());
        assert_eq!(with_deleted(3), [(0, 5), (1, 7)].into());
    }

    /// The values after the cell of a variable is deleted and one is taken again.
    fn with_deleted(a: usize) -> BTreeMap<usize, usize> {
        let deleted = after(&valued(), DELETE, a, 0).expect("a is at a cell");
        let cell = a - 1;
        let taken = deleted.after(Operation { kind: NEW, a, b: 0 }, cell);
        taken.expect("new is always enabled").values
    }
}
