//! The pendant's block list (document 02, Wish 12): the cells that are met from variable 1, the
//! head, until # is met. Variables 2 and 3 walk.

use super::heap::{Heap, Place};
use super::stepper::{bytes_of, heap_of, lowest_unused, values_of};

use Place::{Cell, Dangling, Null};

/// Why a call is refused, in the order in which it is tried.
#[derive(Clone, Copy, Debug, PartialEq, Eq)]
pub enum Refused {
    IllFormed,
    FewVariables,
    /// # isn't met, as the head is at *.
    HeadDangles,
    /// # isn't met, as the link of a cell is at *.
    LinkDangles,
    /// # isn't met, as the cells go round, but for so many ahead of the ring.
    Ring {
        ahead: usize,
    },
    /// The list has no n-th cell.
    PastList,
    /// All cells are used.
    Full,
}

impl Refused {
    pub fn number(self) -> u32 {
        match self {
            Refused::IllFormed | Refused::FewVariables => 13,
            Refused::HeadDangles | Refused::LinkDangles | Refused::Ring { .. } => 29,
            Refused::PastList => 28,
            Refused::Full => 15,
        }
    }
}

/// Puts the lowest unused cell, without a value, after the n-th, or at the front where n is 0.
pub fn insert(bytes: &[u8], values: &[u32], n: u32) -> Result<Heap, Refused> {
    let (heap, mut cells) = read(bytes, values)?;
    let n = n as usize;
    if n > cells.len() {
        return Err(Refused::PastList);
    }
    let cell = lowest_unused(&heap).ok_or(Refused::Full)?;
    cells.insert(n, cell);
    Ok(chained(heap, &cells))
}

/// Takes the n-th cell out, counted from 1, and frees it; what else stood at it then dangles.
pub fn remove(bytes: &[u8], values: &[u32], n: u32) -> Result<Heap, Refused> {
    let (heap, mut cells) = read(bytes, values)?;
    let n = n as usize;
    if n == 0 || n > cells.len() {
        return Err(Refused::PastList);
    }
    let removed = cells.remove(n - 1);
    Ok(chained(heap.without(removed), &cells))
}

/// How many cells are met, with the heap after the walk.
pub fn count(bytes: &[u8], values: &[u32]) -> Result<(Heap, usize), Refused> {
    let (heap, cells) = read(bytes, values)?;
    Ok((walked(heap), cells.len()))
}

/// The number that a call returns, with the bytes and the values that it leaves: those of the heap
/// after, or those that it got.
pub fn answer(
    bytes: &[u8],
    values: &[u32],
    after: &Result<Heap, Refused>,
) -> (u32, Vec<u8>, Vec<u32>) {
    match after {
        Ok(heap) => (0, bytes_of(heap).to_vec(), values_of(heap).to_vec()),
        Err(refused) => (refused.number(), bytes.to_vec(), values.to_vec()),
    }
}

/// The heap with these cells, in this order, as its list.
pub fn chained(mut heap: Heap, cells: &[usize]) -> Heap {
    let place = |cell: Option<&usize>| cell.map_or(Null, |&cell| Cell(cell));
    heap.variables[0] = place(cells.first());
    for (index, &cell) in cells.iter().enumerate() {
        heap.links.insert(cell, place(cells.get(index + 1)));
    }
    walked(heap)
}

/// The heap with variables 2 and 3 at #.
fn walked(mut heap: Heap) -> Heap {
    heap.variables[1..3].fill(Null);
    heap
}

/// The heap and the cells of its list.
fn read(bytes: &[u8], values: &[u32]) -> Result<(Heap, Vec<usize>), Refused> {
    let heap = heap_of(bytes, values).ok_or(Refused::IllFormed)?;
    if heap.variables.len() < 3 {
        return Err(Refused::FewVariables);
    }
    let cells = met(&heap)?;
    Ok((heap, cells))
}

/// The cells that are met from the head.
fn met(heap: &Heap) -> Result<Vec<usize>, Refused> {
    let mut cells = Vec::new();
    let mut place = heap.place(1);
    loop {
        match place {
            Null => return Ok(cells),
            Dangling if cells.is_empty() => return Err(Refused::HeadDangles),
            Dangling => return Err(Refused::LinkDangles),
            Cell(cell) => {
                if let Some(ahead) = cells.iter().position(|&met| met == cell) {
                    return Err(Refused::Ring { ahead });
                }
                cells.push(cell);
                place = heap.links[&cell];
            }
        }
    }
}

#[cfg(test)]
mod tests {
    use super::*;
    use crate::reference::stepper::CELLS;

    /// Cells 5, 2 and 7 are the list, with values 50, 20 and 70. Variable 4 and the link of cell 0,
    /// which is in no list, are at cell 2, variable 5 is at cell 0; 2 and 3 are at cells.
    fn sample() -> Heap {
        let mut heap = chained(Heap::empty(5), &[5, 2, 7]);
        heap.variables = vec![Cell(5), Cell(2), Cell(0), Cell(2), Cell(0)];
        heap.links.insert(0, Cell(2));
        heap.values = [(5, 50), (2, 20), (7, 70)].into();
        heap
    }

    fn inserted(heap: &Heap, n: u32) -> Result<Heap, Refused> {
        insert(&bytes_of(heap), &values_of(heap), n)
    }

    fn removed(heap: &Heap, n: u32) -> Result<Heap, Refused> {
        remove(&bytes_of(heap), &values_of(heap), n)
    }

    fn counted(heap: &Heap) -> Result<usize, Refused> {
        let counted = count(&bytes_of(heap), &values_of(heap));
        counted.map(|(_, count)| count)
    }

    /// The sample after an edit that gives these links of cells in the list.
    fn edited(head: usize, links: &[(usize, Place)]) -> Heap {
        let mut heap = sample();
        heap.variables = vec![Cell(head), Null, Null, Cell(2), Cell(0)];
        heap.links.extend(links.iter().copied());
        heap
    }

    #[test]
    fn inserts_after_the_nth() {
        for (n, expected) in [
            (0, edited(1, &[(1, Cell(5))])),
            (1, edited(5, &[(5, Cell(1)), (1, Cell(2))])),
            (2, edited(5, &[(2, Cell(1)), (1, Cell(7))])),
            (3, edited(5, &[(7, Cell(1)), (1, Null)])),
        ] {
            assert_eq!(inserted(&sample(), n), Ok(expected), "{n}");
        }
    }

    #[test]
    fn removes_the_nth() {
        let mut first = edited(2, &[]);
        first.links.remove(&5);
        first.values.remove(&5);
        assert_eq!(removed(&sample(), 1), Ok(first));
        let mut second = edited(5, &[(5, Cell(7)), (0, Dangling)]);
        second.variables[3] = Dangling;
        second.links.remove(&2);
        second.values.remove(&2);
        assert_eq!(removed(&sample(), 2), Ok(second));
        let mut third = edited(5, &[(2, Null)]);
        third.links.remove(&7);
        third.values.remove(&7);
        assert_eq!(removed(&sample(), 3), Ok(third));
    }

    #[test]
    fn counts_and_moves_the_walkers_alone() {
        let sample = sample();
        let counted = count(&bytes_of(&sample), &values_of(&sample));
        assert_eq!(counted, Ok((edited(5, &[]), 3)));
    }

    #[test]
    fn refuses_in_order() {
        let mut heap = chained(Heap::empty(3), &(0..CELLS).collect::<Vec<_>>());
        assert_eq!(inserted(&heap, 64), Err(Refused::Full));
        assert_eq!(inserted(&heap, 65), Err(Refused::PastList));
        assert_eq!(removed(&heap, 65), Err(Refused::PastList));
        assert_eq!(removed(&heap, 0), Err(Refused::PastList));
        assert_eq!(counted(&heap), Ok(64));
        let mut refuses = |place, refused| {
            heap.links.insert(63, place);
            assert_eq!(inserted(&heap, u32::MAX), Err(refused));
            assert_eq!(removed(&heap, 0), Err(refused));
            assert_eq!(counted(&heap), Err(refused));
        };
        refuses(Cell(63), Refused::Ring { ahead: 63 });
        refuses(Cell(0), Refused::Ring { ahead: 0 });
        refuses(Dangling, Refused::LinkDangles);
        assert_eq!(counted(&Heap::empty(3)), Err(Refused::HeadDangles));
        assert_eq!(counted(&Heap::empty(2)), Err(Refused::FewVariables));
        assert_eq!(count(&[], &[]), Err(Refused::IllFormed));
    }
}
