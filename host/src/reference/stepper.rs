//! The stepper: one operation on a heap of 64 cells held in 137 bytes and 64 numbers.

use std::collections::BTreeMap;
use std::ops::Range;

use super::heap::{Heap, Place};
use super::operation::{operation, KINDS, NEW};

pub const CELLS: usize = 64;
pub const SLOTS: usize = 8;

/// The bytes: the number of variables, eight variable slots, the cells' marks, the cells' links.
pub const HEAP_BYTES: usize = 1 + SLOTS + 2 * CELLS;
pub const VARIABLES: Range<usize> = 1..1 + SLOTS;
pub const MARKS: Range<usize> = VARIABLES.end..VARIABLES.end + CELLS;
pub const LINKS: Range<usize> = MARKS.end..HEAP_BYTES;

/// The numbers: 0 for a cell without a value, v + 1 for the value v.
pub const NO_VALUES: [u32; CELLS] = [0; CELLS];
pub const LARGEST_VALUE: u32 = 65_535;

/// What the stepper answers.
#[derive(Clone, Debug, PartialEq, Eq)]
pub enum Step {
    /// The heap after the step.
    Moved(Heap),
    Blocked,
    /// Refusal 13.
    IllFormed,
    /// Refusal 14.
    OutsideTable,
    /// Refusal 15.
    Full,
}

/// One step of kinds 1 to 7 on a heap without values.
pub fn step(bytes: &[u8], kind: u64, a: u64, b: u64) -> Step {
    let kind = if KINDS.contains(&kind) { kind } else { 0 };
    step_values(bytes, &NO_VALUES, (kind, a, b), 0)
}

/// One step: a kind and its operands. New takes the lowest unused cell; larger, smaller and read
/// write the value that is lent.
pub fn step_values(
    bytes: &[u8],
    values: &[u32],
    (kind, a, b): (u64, u64, u64),
    value: u16,
) -> Step {
    let Some(heap) = heap_of(bytes, values) else {
        return Step::IllFormed;
    };
    let Some(operation) = operation(kind, a, b, heap.variables.len() as u64) else {
        return Step::OutsideTable;
    };
    let choice = match (kind, lowest_unused(&heap)) {
        (NEW, None) => return Step::Full,
        (NEW, Some(cell)) => cell,
        _ => value.into(),
    };
    match heap.after(operation, choice) {
        Some(after) => Step::Moved(after),
        None => Step::Blocked,
    }
}

/// The cell that new takes, nothing where all are used.
pub fn lowest_unused(heap: &Heap) -> Option<usize> {
    (0..CELLS).find(|cell| !heap.links.contains_key(cell))
}

/// The heap that 137 bytes and 64 numbers stand for, nothing where they are ill formed.
pub fn heap_of(bytes: &[u8], values: &[u32]) -> Option<Heap> {
    if bytes.len() != HEAP_BYTES || values.len() != CELLS {
        return None;
    }
    let count = bytes[0] as usize;
    let (slots, marks, links) = (&bytes[VARIABLES], &bytes[MARKS], &bytes[LINKS]);
    if !(1..=SLOTS).contains(&count) || marks.iter().any(|&mark| mark > 1) {
        return None;
    }
    if slots[count..].iter().any(|&slot| slot != 0) {
        return None;
    }
    let variables = slots[..count].iter().map(|&code| place_of(code, marks));
    let mut cells = BTreeMap::new();
    for cell in 0..CELLS {
        match marks[cell] {
            1 => drop(cells.insert(cell, place_of(links[cell], marks)?)),
            _ if links[cell] != 0 => return None,
            _ => {}
        }
    }
    let mut of_cells = BTreeMap::new();
    for (cell, &code) in values.iter().enumerate() {
        match code.checked_sub(1) {
            None => {}
            Some(value) if value <= LARGEST_VALUE && cells.contains_key(&cell) => {
                of_cells.insert(cell, value as usize);
            }
            Some(_) => return None,
        }
    }
    Some(Heap {
        variables: variables.collect::<Option<_>>()?,
        links: cells,
        values: of_cells,
    })
}

/// The place with a code, nothing where no variable or used link may stand there.
fn place_of(code: u8, marks: &[u8]) -> Option<Place> {
    Place::of_code(code.into()).filter(|place| match place {
        Place::Cell(cell) => marks.get(*cell) == Some(&1),
        _ => true,
    })
}

/// The bytes of a heap of at most eight variables and cells below 64.
pub fn bytes_of(heap: &Heap) -> [u8; HEAP_BYTES] {
    let mut bytes = [0; HEAP_BYTES];
    bytes[0] = heap.variables.len() as u8;
    for (variable, &place) in heap.variables.iter().enumerate() {
        bytes[VARIABLES.start + variable] = place.code() as u8;
    }
    for (&cell, &place) in &heap.links {
        bytes[MARKS.start + cell] = 1;
        bytes[LINKS.start + cell] = place.code() as u8;
    }
    bytes
}

/// The numbers of its values.
pub fn values_of(heap: &Heap) -> [u32; CELLS] {
    let mut values = NO_VALUES;
    for (&cell, &value) in &heap.values {
        values[cell] = value as u32 + 1;
    }
    values
}

#[cfg(test)]
mod tests {
    use super::*;

    /// The empty heap with so many variables.
    fn empty(variables: usize) -> [u8; HEAP_BYTES] {
        bytes_of(&Heap::empty(variables))
    }

    fn moved(bytes: &[u8], kind: u64, a: u64, b: u64) -> [u8; HEAP_BYTES] {
        match step(bytes, kind, a, b) {
            Step::Moved(after) => bytes_of(&after),
            other => panic!("not moved: {other:?}"),
        }
    }

    #[test]
    fn new_takes_the_lowest_unused_cell() {
        let mut bytes = empty(2);
        for _ in 0..3 {
            bytes = moved(&bytes, 6, 1, 0);
        }
        assert_eq!(bytes[1..3], [3 + 2, 2]);
        assert_eq!(bytes[MARKS.start..MARKS.start + 4], [1, 1, 1, 0]);
        assert_eq!(bytes[LINKS.start..LINKS.start + 4], [2, 2, 2, 0]);
        let freed = moved(&bytes, 7, 1, 0);
        assert_eq!(freed[1..3], [2, 2]);
        assert_eq!(moved(&freed, 6, 2, 0)[1..3], [2, 3 + 2]);
    }

    #[test]
    fn the_65th_cell_is_refused() {
        let mut bytes = empty(1);
        for _ in 0..CELLS {
            bytes = moved(&bytes, 6, 1, 0);
        }
        assert_eq!(step(&bytes, 6, 1, 0), Step::Full);
        assert_eq!(step(&bytes, 6, 2, 0), Step::OutsideTable);
        assert_eq!(moved(&bytes, 1, 1, 1), bytes);
    }

    #[test]
    fn following_a_fresh_cell_is_blocked() {
        let bytes = moved(&empty(1), 6, 1, 0);
        assert_eq!(step(&bytes, 4, 1, 1), Step::Blocked);
        assert_eq!(step(&empty(1), 7, 1, 0), Step::Blocked);
    }

    #[test]
    fn ill_formed_heaps() {
        let damages: [(usize, u8); 9] = [
            (0, 0),
            (0, 9),
            (2, 2),
            (1, 0),
            (1, 3),
            (1, 3 + 64),
            (MARKS.start, 2),
            (MARKS.start, 1),
            (LINKS.start, 1),
        ];
        for (at, byte) in damages {
            let mut bytes = empty(1);
            bytes[at] = byte;
            assert_eq!(
                step(&bytes, 6, 1, 0),
                Step::IllFormed,
                "byte {at} is {byte}"
            );
            assert_eq!(step(&bytes, 0, 0, 0), Step::IllFormed);
        }
        assert_eq!(step(&empty(1)[1..], 6, 1, 0), Step::IllFormed);
        assert_eq!(step(&[], 6, 1, 0), Step::IllFormed);
    }

    #[test]
    fn operations_outside_the_table() {
        let rows = [
            (0, 1, 1),
            (8, 1, 1),
            (1, 3, 0),
            (2, 0, 3),
            (3, 0, 1),
            (4, 1, 0),
            (5, 0, 1),
            (6, 1, 1),
            (7, 1, 2),
        ];
        for (kind, a, b) in rows {
            assert_eq!(step(&empty(2), kind, a, b), Step::OutsideTable);
        }
    }
    /// One variable at a used cell, with that code of a value.
    fn one_cell(code: u32) -> ([u8; HEAP_BYTES], [u32; CELLS]) {
        let mut values = NO_VALUES;
        values[0] = code;
        (moved(&empty(1), 6, 1, 0), values)
    }

    #[test]
    fn values_go_along() {
        let (bytes, values) = one_cell(6);
        let after = |kind, value| match step_values(&bytes, &values, (kind, 1, 1), value) {
            Step::Moved(after) => Some((bytes_of(&after), values_of(&after))),
            _ => None,
        };
        assert_eq!(after(8, 0), Some((bytes, values)));
        assert_eq!(after(9, 0), None);
        assert_eq!(after(11, 65_535), Some((bytes, one_cell(65_536).1)));
        assert_eq!(after(11, 5), None);
        assert_eq!(after(12, 0), Some((bytes, one_cell(1).1)));
        let deleted = step_values(&bytes, &values, (7, 1, 0), 0);
        assert_eq!(deleted, Step::Moved(Heap::empty(1)));
    }

    #[test]
    fn ill_formed_values() {
        let (bytes, values) = one_cell(65_536);
        let test = (8, 1, 1);
        assert!(matches!(
            step_values(&bytes, &values, test, 0),
            Step::Moved(_)
        ));
        for (bytes, values) in [
            (&bytes, &one_cell(65_537).1[..]),
            (&empty(1), &one_cell(1).1[..]),
            (&bytes, &values[1..]),
            (&bytes, &[0; CELLS + 1][..]),
            (&bytes, &[][..]),
        ] {
            assert_eq!(step_values(bytes, values, test, 0), Step::IllFormed);
        }
    }

    #[test]
    fn operations_on_values_outside_the_table() {
        let rows = [
            (8, 0, 1),
            (9, 1, 0),
            (10, 1, 3),
            (11, 3, 1),
            (12, 0, 0),
            (13, 1, 1),
            (14, 1, 0),
        ];
        for operation in rows {
            let step = step_values(&empty(2), &NO_VALUES, operation, 0);
            assert_eq!(step, Step::OutsideTable);
        }
        assert_eq!(step(&one_cell(0).0, 13, 1, 0), Step::OutsideTable);
    }
}
