//! The covers of the predecessors of a shape, kind by kind.

use super::choices::Choices;
use super::cover::Covers;
use super::places::{slot, Places};
use super::words::bytes_equal;
use crate::baseline::job::Transition;
use crate::baseline::reader::Stopped;
use crate::baseline::shape::{CELL, DANGLING, HELPER, NOWHERE, NULL};
use crate::reference::operation::{ASSIGN, DELETE, DIFFERENT, EQUAL, LOAD, NEW};

impl Covers<'_, '_> {
    /// Checks the covers of the predecessors of a shape by a transition.
    #[inline(always)]
    pub fn check_transition(&mut self, shape: &Places, by: &Transition) -> Result<(), Stopped> {
        let Transition {
            from, operation, ..
        } = *by;
        let (a, b) = (slot(operation.a), slot(operation.b));
        match operation.kind {
            EQUAL => self.check_equal(shape, from, a, b),
            DIFFERENT => self.check_different(shape, from, a, b),
            ASSIGN => self.check_assign(shape, from, a, b),
            LOAD if a == b => self.check_load(shape, from, a, slot(HELPER)),
            LOAD => self.check_load(shape, from, a, b),
            NEW => self.check_new(shape, from, a),
            DELETE => self.check_delete(shape, from, a),
            _ => self.check_store(shape, from, a, b),
        }
    }

    /// Checks the covers of the predecessors by some choices of an operand; what the operation
    /// changes is put back.
    #[inline(always)]
    fn check_each(
        &mut self,
        from: u8,
        shape: &Places,
        slot: usize,
        choices: Choices,
        undo: impl Fn(&mut Places),
    ) -> Result<(), Stopped> {
        for choice in choices {
            let mut before = shape.placing(slot, choice);
            undo(&mut before);
            self.check(from, &before)?;
        }
        Ok(())
    }

    /// Both at one place: a by a choice, then b there.
    fn check_equal(&mut self, shape: &Places, from: u8, a: usize, b: usize) -> Result<(), Stopped> {
        let choices = match (shape.at(a), shape.at(b)) {
            (DANGLING, _) | (_, DANGLING) => return Ok(()),
            (NOWHERE, NOWHERE) => Choices::any(shape),
            (NOWHERE, place) => Choices::at(place),
            (x, y) => Choices::at_if(y == NOWHERE || x == y, x),
        };
        self.check_each(from, shape, a, choices, |before| {
            before.set(b, before.at(a));
        })
    }

    /// b at a's place, and a nowhere.
    fn check_assign(
        &mut self,
        shape: &Places,
        from: u8,
        a: usize,
        b: usize,
    ) -> Result<(), Stopped> {
        if a == b {
            return self.check_equal(shape, from, a, b);
        }
        let choices = match (shape.at(a), shape.at(b)) {
            (DANGLING, _) | (_, DANGLING) => return Ok(()),
            (NOWHERE, NOWHERE) => Choices::any(shape),
            (place, NOWHERE) => Choices::at(place),
            (x, y) => Choices::at_if(x == NOWHERE || x == y, y),
        };
        self.check_each(from, shape, b, choices, |before| before.set(a, NOWHERE))
    }

    /// Both placed, at different places; where both are nowhere, first a.
    fn check_different(
        &mut self,
        shape: &Places,
        from: u8,
        a: usize,
        b: usize,
    ) -> Result<(), Stopped> {
        let (slot, choices) = match (shape.at(a), shape.at(b)) {
            _ if a == b => return Ok(()),
            (DANGLING, _) | (_, DANGLING) => return Ok(()),
            (NOWHERE, NOWHERE) => {
                return Choices::any(shape).try_for_each(|choice| {
                    self.check_different(&shape.placing(a, choice), from, a, b)
                })
            }
            (NOWHERE, place) => (a, Choices::elsewhere(shape, place)),
            (place, NOWHERE) => (b, Choices::elsewhere(shape, place)),
            (x, y) => (b, Choices::at_if(x != y, y)),
        };
        self.check_each(from, shape, slot, choices, |_| {})
    }

    /// Both placed, the link of b's cell at a's place, and a nowhere; where the helper plays b, a at
    /// that cell.
    fn check_load(&mut self, shape: &Places, from: u8, a: usize, b: usize) -> Result<(), Stopped> {
        let is_same = b == slot(HELPER);
        let (slot, choices) = match (shape.at(a), shape.at(b)) {
            (DANGLING, _) | (_, NULL | DANGLING) => return Ok(()),
            (NOWHERE, NOWHERE) => {
                return Choices::any(shape)
                    .try_for_each(|choice| self.check_load(&shape.placing(a, choice), from, a, b))
            }
            _ => linking(shape, b, a),
        };
        self.check_each(from, shape, slot, choices, |before| {
            let cell = before.at(b);
            before.set(cell.into(), before.at(a));
            before.set(a, if is_same { cell } else { NOWHERE });
        })
    }

    /// Both placed, the link of a's cell nowhere.
    fn check_store(&mut self, shape: &Places, from: u8, a: usize, b: usize) -> Result<(), Stopped> {
        let (slot, choices) = match (shape.at(a), shape.at(b)) {
            (NULL | DANGLING, _) | (_, DANGLING) => return Ok(()),
            (NOWHERE, NOWHERE) if a == b => (a, Choices::own_sources(shape)),
            (NOWHERE, NOWHERE) => {
                return Choices::any(shape)
                    .try_for_each(|choice| self.check_store(&shape.placing(a, choice), from, a, b))
            }
            _ => linking(shape, a, b),
        };
        self.check_each(from, shape, slot, choices, |before| {
            before.set(before.at(a).into(), NOWHERE);
        })
    }

    /// A cell that may be new taken out: a's, or each in turn and none where a is nowhere.
    fn check_new(&mut self, shape: &Places, from: u8, a: usize) -> Result<(), Stopped> {
        let mut without_a = *shape;
        without_a.set(a, NOWHERE);
        let open = shape.linked_to(NOWHERE) | shape.linked_to(DANGLING);
        let mut check = |cell: u8| match open >> cell & 1 == 1
            && shape.linked_to(cell) == 0
            && !without_a.has_variable_at(cell)
        {
            true => self.check(from, &without_a.without(cell)),
            false => Ok(()),
        };
        match shape.at(a) {
            NULL | DANGLING => Ok(()),
            NOWHERE => {
                (CELL..CELL + shape.cells()).try_for_each(check)?;
                self.check(from, shape)
            }
            cell => check(cell),
        }
    }

    /// Links to * forgotten, and a at a fresh cell. The others that dangle, as digits of a word, count
    /// up through all sets of them that may have stood at that cell.
    fn check_delete(&mut self, shape: &Places, from: u8, a: usize) -> Result<(), Stopped> {
        if !matches!(shape.at(a), NOWHERE | DANGLING) {
            return Ok(());
        }
        let mut before = *shape;
        before.forget_dangling_links();
        let deleted = before.add_cell(NOWHERE);
        before.set(a, deleted);
        let places = before.variables();
        let dangling = bytes_equal(places, DANGLING);
        let mut moved = 0;
        loop {
            before.set_variables(places + moved * u64::from(deleted - DANGLING));
            self.check(from, &before)?;
            moved = moved.wrapping_sub(dangling) & dangling;
            if moved == 0 {
                return Ok(());
            }
        }
    }
}

/// The slot that is placed, and its choices, where the link of the source's cell is to be nowhere or
/// at the target's place; one of them has a place.
#[inline(always)]
fn linking(shape: &Places, source: usize, target: usize) -> (usize, Choices) {
    match (shape.at(source), shape.at(target)) {
        (NOWHERE, place) => (source, Choices::sources(shape, place)),
        (cell, NOWHERE) => (target, Choices::targets(shape, cell)),
        (cell, place) => {
            let link = shape.link_of(cell);
            (
                target,
                Choices::at_if(link == NOWHERE || link == place, place),
            )
        }
    }
}
