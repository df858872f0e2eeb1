//! The stepper, fast: on the bytes themselves.

use super::operations::{self, Applied};
use super::shape::{CELL, DANGLING, NOWHERE, NULL};
use crate::reference::operation::{
    operation, Operation, BELOW_VALUE, COPY, DELETE, EQUAL_VALUE, KINDS, LARGER, READ, SMALLER,
};
use crate::reference::stepper::{CELLS, HEAP_BYTES, LARGEST_VALUE, LINKS, MARKS, SLOTS};

pub(super) type Heap = [u8; HEAP_BYTES];

/// The codes of the cells' values: 0 for none, v + 1 for v.
pub(super) type Values = [u32; CELLS];

/// One step on the bytes of a heap without values, with the answer for a host in C.
#[inline(never)]
pub fn step(bytes: &mut [u8], kind: u32, a: u32, b: u32) -> u32 {
    let Ok(heap) = <&mut Heap>::try_from(bytes) else {
        return 13;
    };
    if !is_well_formed(heap) {
        return 13;
    }
    let operation = operation(kind.into(), a.into(), b.into(), heap[0].into());
    let Some(operation) = operation.filter(|operation| KINDS.contains(&operation.kind)) else {
        return 14;
    };
    operations::apply(heap, operation) as u32
}

/// One step of any kind, on the bytes of a heap and the codes of its values.
#[inline(never)]
pub fn step_values(
    bytes: &mut [u8],
    values: &mut [u32],
    (kind, a, b): (u32, u32, u32),
    value: u16,
) -> u32 {
    let Some((heap, values)) = well_formed(bytes, values) else {
        return 13;
    };
    let Some(operation) = operation(kind.into(), a.into(), b.into(), heap[0].into()) else {
        return 14;
    };
    let applied = match KINDS.contains(&operation.kind) {
        true => apply_to_links(heap, values, operation),
        false => apply_to_values(heap, values, operation, value),
    };
    applied as u32
}

/// Kinds 1 to 7: a deleted cell's value goes with it.
#[inline(always)]
fn apply_to_links(heap: &mut Heap, values: &mut Values, operation: Operation) -> Applied {
    let deleted = match operation.kind {
        DELETE => cell_at(heap, operation.a),
        _ => None,
    };
    if let Some(cell) = deleted {
        values[cell] = 0;
    }
    operations::apply(heap, operation)
}

/// Kinds 8 to 13.
#[inline(always)]
fn apply_to_values(heap: &Heap, values: &mut Values, operation: Operation, value: u16) -> Applied {
    let Operation { kind, a, b } = operation;
    let lent = u32::from(value) + 1;
    let Some(cell) = cell_at(heap, a) else {
        return Applied::Blocked;
    };
    if kind == READ {
        values[cell] = lent;
        return Applied::Moved;
    }
    let own = values[cell];
    let other = cell_at(heap, b).map_or(0, |cell| values[cell]);
    let (is_enabled, written) = match kind {
        EQUAL_VALUE => (own == other, own),
        BELOW_VALUE => (own != 0 && own < other, own),
        COPY => (true, other),
        LARGER => (other < lent, lent),
        SMALLER => (lent < other, lent),
        _ => unreachable!("an operation on two values has such a kind"),
    };
    if other == 0 || !is_enabled {
        return Applied::Blocked;
    }
    values[cell] = written;
    Applied::Moved
}

/// The number of the cell that a variable stands at.
fn cell_at(heap: &Heap, variable: usize) -> Option<usize> {
    heap[variable].checked_sub(CELL).map(usize::from)
}

/// What is lent, where it is a heap with values.
#[inline(always)]
pub(super) fn well_formed<'a>(
    bytes: &'a mut [u8],
    values: &'a mut [u32],
) -> Option<(&'a mut Heap, &'a mut Values)> {
    let heap = <&mut Heap>::try_from(bytes).ok()?;
    let values = <&mut Values>::try_from(values).ok()?;
    (is_well_formed(heap) && values_fit(heap, values)).then_some((heap, values))
}

/// Whether unused cells have no value, and used ones none that is too large.
fn values_fit(heap: &Heap, values: &Values) -> bool {
    let mut cells = values.iter().zip(&heap[MARKS]);
    cells.all(|(&code, &mark)| code <= u32::from(mark) * (LARGEST_VALUE + 1))
}

fn is_well_formed(heap: &Heap) -> bool {
    let variables = usize::from(heap[0]);
    if !(1..=SLOTS).contains(&variables) || heap[MARKS].iter().any(|&mark| mark > 1) {
        return false;
    }
    let (placed, unused) = heap[1..=SLOTS].split_at(variables);
    let links = heap[LINKS].iter().zip(&heap[MARKS]);
    unused.iter().all(|&slot| slot == NOWHERE)
        && placed.iter().all(|&place| is_place(heap, place))
        && links.into_iter().all(|(&link, &mark)| match mark {
            0 => link == NOWHERE,
            _ => is_place(heap, link),
        })
}

/// Whether a variable or a used link may stand there.
fn is_place(heap: &Heap, place: u8) -> bool {
    match place {
        NOWHERE => false,
        NULL | DANGLING => true,
        cell => heap[MARKS].get(usize::from(cell - CELL)) == Some(&1),
    }
}

impl operations::Heap for Heap {
    fn variable(&self, variable: usize) -> u8 {
        self[variable]
    }

    fn set_variable(&mut self, variable: usize, place: u8) {
        self[variable] = place;
    }

    fn link(&self, cell: u8) -> u8 {
        self[link_of(cell)]
    }

    fn set_link(&mut self, cell: u8, place: u8) {
        self[link_of(cell)] = place;
    }

    /// The lowest unused cell.
    #[inline(always)]
    fn add(&mut self) -> Option<u8> {
        let cell = self[MARKS].iter().position(|&mark| mark == 0)?;
        self[MARKS.start + cell] = 1;
        self[LINKS.start + cell] = DANGLING;
        Some(CELL + cell as u8)
    }

    #[inline(always)]
    fn delete(&mut self, place: u8) {
        let cell = usize::from(place - CELL);
        let (slots, rest) = self.split_at_mut(MARKS.start);
        let (marks, links) = rest.split_at_mut(CELLS);
        marks[cell] = 0;
        links[cell] = NOWHERE;
        for stands in slots[1..].iter_mut().chain(links) {
            if *stands == place {
                *stands = DANGLING;
            }
        }
    }
}

/// Where the link of a cell is.
fn link_of(cell: u8) -> usize {
    LINKS.start + usize::from(cell - CELL)
}

#[cfg(test)]
mod tests {
    use super::*;
    use crate::random::Random;
    use crate::reference::heap;
    use crate::reference::stepper::{self, Step, NO_VALUES};

    /// The answer, and the bytes and values afterwards.
    type Answer = (u32, Vec<u8>, Vec<u32>);

    type Numbers = (u32, u32, u32);

    /// By the reference, which is asked for a step on the bytes and values.
    fn expected(bytes: &[u8], values: &[u32], step: Step) -> Answer {
        let number = match step {
            Step::Moved(after) => {
                let bytes = stepper::bytes_of(&after).to_vec();
                return (0, bytes, stepper::values_of(&after).to_vec());
            }
            Step::Blocked => 100,
            Step::IllFormed => 13,
            Step::OutsideTable => 14,
            Step::Full => 15,
        };
        (number, bytes.to_vec(), values.to_vec())
    }

    fn expected_alone(bytes: &[u8], (kind, a, b): Numbers) -> Answer {
        let step = stepper::step(bytes, kind.into(), a.into(), b.into());
        expected(bytes, &NO_VALUES, step)
    }

    fn expected_with_values(
        bytes: &[u8],
        values: &[u32],
        (kind, a, b): Numbers,
        value: u16,
    ) -> Answer {
        let numbers = (kind.into(), a.into(), b.into());
        let step = stepper::step_values(bytes, values, numbers, value);
        expected(bytes, values, step)
    }

    fn alone(bytes: &[u8], (kind, a, b): Numbers) -> Answer {
        let mut after = bytes.to_vec();
        let returned = step(&mut after, kind, a, b);
        (returned, after, NO_VALUES.to_vec())
    }

    fn with_values(bytes: &[u8], values: &[u32], numbers: Numbers, value: u16) -> Answer {
        let (mut after, mut values) = (bytes.to_vec(), values.to_vec());
        let returned = step_values(&mut after, &mut values, numbers, value);
        (returned, after, values)
    }

    #[test]
    fn steps_as_the_reference() {
        let mut random = Random::new(0xe_5eed);
        let mut bytes = stepper::bytes_of(&heap::Heap::empty(3)).to_vec();
        let mut seen = std::collections::BTreeSet::new();
        for _ in 0..100_000 {
            let kind = random.pick(&[0, 1, 2, 3, 4, 5, 5, 6, 6, 6, 7, 8]);
            let numbers = (
                kind,
                random.below(5) as u32,
                random.pick(&[0, 0, 1, 2, 3, 4]),
            );
            if random.once_in(10) {
                let mut damaged = bytes.clone();
                damaged[random.below(HEAP_BYTES)] = random.below(70) as u8;
                assert_eq!(alone(&damaged, numbers), expected_alone(&damaged, numbers));
            }
            let answer = alone(&bytes, numbers);
            assert_eq!(answer, expected_alone(&bytes, numbers), "{numbers:?}");
            seen.insert(answer.0);
            bytes = answer.1;
        }
        assert!(seen.len() >= 4, "{seen:?}");
    }

    /// Walks from the empty heap, short ones, since one in which all cells are lost goes nowhere.
    #[test]
    fn steps_with_values_as_the_reference() {
        let mut random = Random::new(0x1f_5eed);
        let mut moved = std::collections::BTreeSet::new();
        for _ in 0..1_000 {
            let mut bytes = stepper::bytes_of(&heap::Heap::empty(3)).to_vec();
            let mut values = NO_VALUES.to_vec();
            for _ in 0..200 {
                let kind = random.pick(&[0, 1, 3, 4, 5, 6, 6, 7, 8, 9, 10, 11, 12, 13, 13, 14]);
                let operands = [0, 0, 1, 2, 3, 4];
                let numbers = (kind, random.below(5) as u32, random.pick(&operands));
                let value = random.pick(&[0, 1, 2, 3, 65_535]);
                if random.once_in(10) {
                    let (mut bytes, mut values) = (bytes.clone(), values.clone());
                    match random.once_in(2) {
                        true => bytes[random.below(HEAP_BYTES)] = random.below(70) as u8,
                        false => values[random.below(CELLS)] = random.pick(&[1, 65_536, 65_537]),
                    }
                    let answer = with_values(&bytes, &values, numbers, value);
                    let expected = expected_with_values(&bytes, &values, numbers, value);
                    assert_eq!(answer, expected, "{numbers:?} {value}");
                }
                let answer = with_values(&bytes, &values, numbers, value);
                let expected = expected_with_values(&bytes, &values, numbers, value);
                assert_eq!(answer, expected, "{numbers:?} {value}");
                if answer.0 == 0 {
                    moved.insert(kind);
                }
                (_, bytes, values) = answer;
            }
        }
        assert_eq!(moved, [1, 3, 4, 5, 6, 7, 8, 9, 10, 11, 12, 13].into());
    }
}
