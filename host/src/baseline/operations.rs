//! What the operations do, once for every way in which this crate holds a heap.

use super::shape::{CELL, DANGLING, NULL};
use crate::reference::operation::{Operation, ASSIGN, DELETE, DIFFERENT, EQUAL, LOAD, NEW, STORE};

/// A heap whose places are codes. Variables are numbered from 1, cells are named by their code.
pub trait Heap {
    fn variable(&self, variable: usize) -> u8;
    fn set_variable(&mut self, variable: usize, place: u8);
    fn link(&self, cell: u8) -> u8;
    fn set_link(&mut self, cell: u8, place: u8);
    /// Adds a cell whose link is at *, and gives its code; nothing where there is no room.
    fn add(&mut self) -> Option<u8>;
    /// Takes a cell out; what stood at it then stands at *.
    fn delete(&mut self, cell: u8);
}

/// How an operation ends, with the stepper's answer for a host in C. The heap is changed only where
/// it has moved.
#[derive(Clone, Copy, Debug, PartialEq, Eq)]
#[repr(u32)]
pub enum Applied {
    Moved = 0,
    /// The operation isn't enabled.
    Blocked = 100,
    /// There is no room for a new cell.
    Full = 15,
}

/// Applies an operation to a heap.
#[inline(always)]
pub fn apply(heap: &mut impl Heap, operation: Operation) -> Applied {
    let Operation { kind, a, b } = operation;
    let place = |operand: usize| {
        if operand == 0 {
            NULL
        } else {
            heap.variable(operand)
        }
    };
    let is_enabled = match kind {
        EQUAL => place(a) != DANGLING && place(a) == place(b),
        DIFFERENT => place(a) != DANGLING && place(b) != DANGLING && place(a) != place(b),
        ASSIGN => place(b) != DANGLING,
        LOAD => place(b) >= CELL && heap.link(place(b)) != DANGLING,
        STORE => place(a) >= CELL && place(b) != DANGLING,
        NEW => true,
        DELETE => place(a) >= CELL,
        _ => unreachable!("an operation has a kind of the table"),
    };
    if !is_enabled {
        return Applied::Blocked;
    }
    match kind {
        ASSIGN => heap.set_variable(a, place(b)),
        LOAD => heap.set_variable(a, heap.link(place(b))),
        STORE => heap.set_link(place(a), place(b)),
        NEW => match heap.add() {
            Some(cell) => heap.set_variable(a, cell),
            None => return Applied::Full,
        },
        DELETE => heap.delete(place(a)),
        _ => {}
    }
    Applied::Moved
}
