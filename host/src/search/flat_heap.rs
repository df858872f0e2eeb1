//! Heaps of many cells as bytes, for looking forward. Of values only the order counts.

use crate::baseline::shape::{CELL, DANGLING, NULL};
use crate::reference::heap::{Heap, Place};
use crate::reference::operation::{Operation, ASSIGN, DELETE, DIFFERENT, EQUAL, LOAD, NEW, STORE};
use crate::reference::operation::{BELOW_VALUE, COPY, EQUAL_VALUE, LARGER, READ, SMALLER};

/// How many cells a heap has at most that is looked at, as many as the loom box has.
pub const MOST_CELLS: usize = 64;

/// Where variables and links stand, by the codes of files, and how values compare.
#[derive(Clone, Debug, PartialEq, Eq, Hash)]
pub struct FlatHeap {
    /// By operand: null comes first.
    places: Vec<u8>,
    links: Vec<u8>,
    /// For each cell the number of its value among the different ones, from 1; 0 where it has none.
    ranks: Vec<u8>,
}

/// Why an operation isn't carried out; the numbers are of variables, from 1.
#[derive(Clone, Copy, Debug, PartialEq, Eq)]
pub enum Blocked {
    /// It is a test that fails.
    Fails,
    /// The variable dangles, or stands at null where a cell is needed.
    Variable(usize),
    /// The link of the variable's cell dangles.
    Link(usize),
    /// The variable's cell has no value.
    Value(usize),
}

impl FlatHeap {
    /// No cells, every variable dangling.
    pub fn empty(variables: usize) -> FlatHeap {
        let mut places = vec![DANGLING; variables + 1];
        places[0] = NULL;
        FlatHeap {
            places,
            links: Vec::new(),
            ranks: Vec::new(),
        }
    }

    /// A heap with its cells numbered from 0 in their order.
    pub fn of_heap(heap: &Heap) -> FlatHeap {
        let cells: Vec<usize> = heap.links.keys().copied().collect();
        let code = |place: &Place| match place {
            Place::Null => NULL,
            Place::Dangling => DANGLING,
            Place::Cell(cell) => {
                let number = cells.binary_search(cell).expect("places are in the heap");
                CELL + number as u8
            }
        };
        let different = different(heap);
        let rank = |cell: &usize| match heap.values.get(cell) {
            Some(value) => 1 + different.partition_point(|one| one < value) as u8,
            None => 0,
        };
        FlatHeap {
            places: std::iter::once(&Place::Null)
                .chain(&heap.variables)
                .map(code)
                .collect(),
            links: heap.links.values().map(code).collect(),
            ranks: cells.iter().map(rank).collect(),
        }
    }

    pub fn cells(&self) -> usize {
        self.links.len()
    }

    /// How many different values there are.
    pub fn values(&self) -> usize {
        self.ranks.iter().copied().max().unwrap_or(0).into()
    }

    /// Where an operand stands.
    pub fn place(&self, operand: usize) -> u8 {
        self.places[operand]
    }

    pub fn link(&self, cell: usize) -> u8 {
        self.links[cell]
    }

    pub fn rank(&self, cell: usize) -> u8 {
        self.ranks[cell]
    }

    /// The cell that a variable stands at.
    fn cell_of(&self, variable: usize) -> Result<usize, Blocked> {
        match self.places[variable] {
            NULL | DANGLING => Err(Blocked::Variable(variable)),
            cell => Ok(usize::from(cell - CELL)),
        }
    }

    /// Where an operand stands that must not dangle.
    fn set_place(&self, operand: usize) -> Result<u8, Blocked> {
        match self.places[operand] {
            DANGLING => Err(Blocked::Variable(operand)),
            place => Ok(place),
        }
    }

    /// The number of the value of a variable's cell.
    fn rank_of(&self, variable: usize) -> Result<u8, Blocked> {
        match self.ranks[self.cell_of(variable)?] {
            0 => Err(Blocked::Value(variable)),
            rank => Ok(rank),
        }
    }

    /// The heaps after an operation, several where it leaves a value open; each with the slot of the
    /// value that is written, see [`value_in`].
    pub fn after(&self, operation: Operation) -> Result<Vec<(usize, FlatHeap)>, Blocked> {
        let Operation { kind, a, b } = operation;
        let mut heap = self.clone();
        match kind {
            EQUAL => only_if(self.set_place(a)? == self.set_place(b)?)?,
            DIFFERENT => only_if(self.set_place(a)? != self.set_place(b)?)?,
            ASSIGN => heap.places[a] = self.set_place(b)?,
            LOAD => match self.links[self.cell_of(b)?] {
                DANGLING => return Err(Blocked::Link(b)),
                place => heap.places[a] = place,
            },
            STORE => heap.links[self.cell_of(a)?] = self.set_place(b)?,
            NEW => {
                heap.places[a] = CELL + self.cells() as u8;
                heap.links.push(DANGLING);
                heap.ranks.push(0);
            }
            DELETE => heap.remove(self.cell_of(a)?),
            EQUAL_VALUE => only_if(self.rank_of(a)? == self.rank_of(b)?)?,
            BELOW_VALUE => only_if(self.rank_of(a)? < self.rank_of(b)?)?,
            COPY => heap.ranks[self.cell_of(a)?] = self.rank_of(b)?,
            _ => return self.written(operation),
        }
        Ok(vec![(0, heap.canonical())])
    }

    /// The heaps after an operation that leaves a value open.
    fn written(&self, operation: Operation) -> Result<Vec<(usize, FlatHeap)>, Blocked> {
        let Operation { kind, a, b } = operation;
        let cell = self.cell_of(a)?;
        let last = 2 * self.values();
        let slots = match kind {
            READ => 0..=last,
            LARGER => 2 * usize::from(self.rank_of(b)?)..=last,
            SMALLER => 0..=2 * usize::from(self.rank_of(b)?) - 2,
            _ => unreachable!("an operation has a kind of the table"),
        };
        let written = |slot: usize| {
            let mut heap = self.clone();
            for rank in heap.ranks.iter_mut().filter(|rank| **rank > 0) {
                *rank *= 2;
            }
            heap.ranks[cell] = slot as u8 + 1;
            (slot, heap.canonical())
        };
        Ok(slots.map(written).collect())
    }

    /// Takes a cell out; what stood at it dangles.
    fn remove(&mut self, cell: usize) {
        self.links.remove(cell);
        self.ranks.remove(cell);
        let gone = CELL + cell as u8;
        for place in self.places.iter_mut().chain(&mut self.links) {
            match *place {
                at if at == gone => *place = DANGLING,
                at if at > gone => *place -= 1,
                _ => {}
            }
        }
    }

    /// The heap with its cells numbered in the order that following links from the variables meets
    /// them, cells that aren't met so last, and its values numbered without gaps.
    fn canonical(mut self) -> FlatHeap {
        let count = self.cells();
        let mut order: Vec<u8> = Vec::with_capacity(count);
        let mut codes = vec![0; usize::from(CELL) + count];
        codes[usize::from(NULL)] = NULL;
        codes[usize::from(DANGLING)] = DANGLING;
        let all = CELL..CELL + count as u8;
        for start in self.places.iter().copied().chain(all) {
            let mut place = start;
            while codes[usize::from(place)] == 0 {
                codes[usize::from(place)] = CELL + order.len() as u8;
                order.push(place - CELL);
                place = self.links[usize::from(place - CELL)];
            }
        }
        for place in &mut self.places {
            *place = codes[usize::from(*place)];
        }
        self.close_gaps();
        let cells = order.iter().map(|&cell| usize::from(cell));
        let links = cells
            .clone()
            .map(|cell| codes[usize::from(self.links[cell])]);
        FlatHeap {
            links: links.collect(),
            ranks: cells.map(|cell| self.ranks[cell]).collect(),
            places: self.places,
        }
    }

    /// Numbers the values without gaps.
    fn close_gaps(&mut self) {
        if self.values() == 0 {
            return;
        }
        let mut used = [&self.ranks[..], &[0]].concat();
        used.sort_unstable();
        used.dedup();
        for rank in &mut self.ranks {
            *rank = used.partition_point(|one| one < rank) as u8;
        }
    }
}

fn only_if(holds: bool) -> Result<(), Blocked> {
    match holds {
        true => Ok(()),
        false => Err(Blocked::Fails),
    }
}

/// The different values of a heap, in their order.
fn different(heap: &Heap) -> Vec<usize> {
    let mut all: Vec<usize> = heap.values.values().copied().collect();
    all.sort_unstable();
    all.dedup();
    all
}

/// A value in a slot of a heap: odd slots are the heap's different values in their order, even ones lie
/// between two of them, or below or above all. Between them there is room as long as they lie far apart.
pub fn value_in(slot: usize, heap: &Heap) -> usize {
    let different = different(heap);
    if slot % 2 == 1 {
        return different[slot / 2];
    }
    let below = slot.checked_sub(2).map_or(0, |_| different[slot / 2 - 1]);
    let above = different.get(slot / 2).copied().unwrap_or(usize::MAX);
    below + (above - below) / 2
}

#[cfg(test)]
mod tests {
    use std::collections::BTreeSet;

    use super::*;
    use crate::random::Random;
    use crate::search::trial::random_operation;

    /// Whether every cell is met by following links from the variables.
    fn is_all_met(heap: &Heap) -> bool {
        let mut met = BTreeSet::new();
        for &variable in &heap.variables {
            let mut place = variable;
            while let Place::Cell(cell) = place {
                if !met.insert(cell) {
                    break;
                }
                place = heap.links[&cell];
            }
        }
        met.len() == heap.links.len()
    }

    /// Every step of the reference is one of ours with the same heap, also in long random runs.
    #[test]
    fn steps_agree_with_the_reference() {
        let mut random = Random::new(0x3b_5eed);
        let (mut moved, mut blocked, mut whole) = ([0; 14], 0, 0);
        let mut heap = Heap::empty(3);
        let mut fresh = 0;
        for _ in 0..300_000 {
            let Some(operation) = random_operation(&mut random) else {
                continue;
            };
            let before = FlatHeap::of_heap(&heap).canonical();
            let Ok(after) = before.after(operation) else {
                blocked += 1;
                let reference = [0, 3, usize::MAX].map(|choice| heap.after(operation, choice));
                assert_eq!(reference, [None, None, None], "{operation:?} on {heap:?}");
                continue;
            };
            let (slot, after) = &after[random.below(after.len())];
            let choice = match operation.kind {
                LARGER | SMALLER | READ => value_in(*slot, &heap),
                _ => fresh,
            };
            heap = heap.after(operation, choice).expect("it is enabled");
            fresh += usize::from(operation.kind == NEW);
            assert_eq!(FlatHeap::of_heap(&heap).values(), after.values());
            let ours = FlatHeap::of_heap(&heap).canonical();
            assert_eq!(ours.places, after.places, "{operation:?} to {heap:?}");
            // The numbers of cells that no variable leads to may differ.
            if is_all_met(&heap) {
                assert_eq!(ours, *after, "{operation:?} to {heap:?}");
                whole += 1;
            }
            moved[operation.kind as usize] += 1;
            if heap.links.len() > 12 || random.once_in(40) {
                heap = Heap::empty(3);
            }
        }
        assert!(moved[1..].iter().all(|&count| count > 20), "{moved:?}");
        assert!(blocked > 1_000 && whole > 1_000, "{blocked}, {whole}");
    }
}
