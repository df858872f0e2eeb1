//! The predecessors of a shape in their order, made one at a time and only where they aren't
//! dropped.

use super::shape::{Shape, CELL, DANGLING, HELPER, NOWHERE, NULL};
use crate::reference::operation::{Operation, ASSIGN, DELETE, DIFFERENT, EQUAL, LOAD, NEW, STORE};

/// A choice for a variable that is placed.
#[derive(Clone, Copy, PartialEq, Eq)]
pub enum Choice {
    /// At a cell or #.
    At(u8),
    /// At a fresh cell without a link.
    Fresh,
    /// At a fresh cell in the middle of this cell's link.
    Within(u8),
}

use Choice::{At, Fresh, Within};

/// Visits all choices, in their order.
#[inline]
pub fn each_choice<E>(
    shape: &Shape,
    mut visit: impl FnMut(Choice) -> Result<(), E>,
) -> Result<(), E> {
    for cell in CELL..shape.fresh() {
        visit(At(cell))?;
    }
    visit(At(NULL))?;
    visit(Fresh)?;
    for cell in CELL..shape.fresh() {
        if shape.link_of(cell) != NOWHERE {
            visit(Within(cell))?;
        }
    }
    Ok(())
}

/// The shape with a variable placed.
pub fn placed(shape: &Shape, variable: usize, choice: Choice) -> Shape {
    let mut shape = *shape;
    let fresh = shape.fresh();
    shape.variables[variable] = fresh;
    match choice {
        At(place) => shape.variables[variable] = place,
        Fresh => shape.add_cell(NOWHERE),
        Within(source) => {
            shape.add_cell(shape.link_of(source));
            shape.set_link_of(source, fresh);
        }
    }
    shape
}

/// Visits the predecessors until the visitor gives an error.
pub fn each_predecessor<E>(
    shape: &Shape,
    operation: Operation,
    visit: &mut impl FnMut(&Shape) -> Result<(), E>,
) -> Result<(), E> {
    let Operation { kind, a, b } = operation;
    match kind {
        EQUAL => each_equal(shape, a, b, visit),
        DIFFERENT => each_different(shape, a, b, visit),
        ASSIGN => each_equal(shape, a, b, &mut |same| {
            let mut before = *same;
            if a != b {
                before.variables[a] = NOWHERE;
            }
            visit(&before)
        }),
        LOAD if a == b => each_load(shape, a, HELPER, &mut |follow| {
            let mut before = *follow;
            before.variables[a] = before.variables[HELPER];
            before.variables[HELPER] = NOWHERE;
            visit(&before)
        }),
        LOAD => each_load(shape, a, b, visit),
        STORE => each_store(shape, a, b, visit),
        NEW => each_new(shape, a, visit),
        DELETE => each_delete(shape, a, visit),
        _ => unreachable!("an operation has a kind of the table"),
    }
}

/// Both placed at one place.
fn each_equal<E>(
    shape: &Shape,
    a: usize,
    b: usize,
    visit: &mut impl FnMut(&Shape) -> Result<(), E>,
) -> Result<(), E> {
    match (shape.variables[a], shape.variables[b]) {
        (DANGLING, _) | (_, DANGLING) => Ok(()),
        (NOWHERE, NOWHERE) => each_choice(shape, |choice| {
            let mut same = placed(shape, a, choice);
            same.variables[b] = same.variables[a];
            visit(&same)
        }),
        (NOWHERE, place) => visit(&placed(shape, a, At(place))),
        (place, NOWHERE) => visit(&placed(shape, b, At(place))),
        (here, there) if here == there => visit(shape),
        _ => Ok(()),
    }
}

/// Both placed, at different places.
fn each_different<E>(
    shape: &Shape,
    a: usize,
    b: usize,
    visit: &mut impl FnMut(&Shape) -> Result<(), E>,
) -> Result<(), E> {
    match (shape.variables[a], shape.variables[b]) {
        _ if a == b => Ok(()),
        (DANGLING, _) | (_, DANGLING) => Ok(()),
        (NOWHERE, NOWHERE) => each_choice(shape, |choice| {
            let a_placed = placed(shape, a, choice);
            each_elsewhere(&a_placed, b, a_placed.variables[a], visit)
        }),
        (NOWHERE, place) => each_elsewhere(shape, a, place, visit),
        (place, NOWHERE) => each_elsewhere(shape, b, place, visit),
        (here, there) if here != there => visit(shape),
        _ => Ok(()),
    }
}

/// A variable placed anywhere but at a place.
fn each_elsewhere<E>(
    shape: &Shape,
    variable: usize,
    place: u8,
    visit: &mut impl FnMut(&Shape) -> Result<(), E>,
) -> Result<(), E> {
    each_choice(shape, |choice| match choice == At(place) {
        true => Ok(()),
        false => visit(&placed(shape, variable, choice)),
    })
}

/// Both placed, the link of b's cell at a's place, a nowhere.
fn each_load<E>(
    shape: &Shape,
    a: usize,
    b: usize,
    visit: &mut impl FnMut(&Shape) -> Result<(), E>,
) -> Result<(), E> {
    let mut linked = |both: &Shape| {
        let mut before = *both;
        before.set_link_of(both.variables[b], both.variables[a]);
        before.variables[a] = NOWHERE;
        visit(&before)
    };
    match (shape.variables[a], shape.variables[b]) {
        (DANGLING, _) | (_, NULL | DANGLING) => Ok(()),
        (NOWHERE, NOWHERE) => each_choice(shape, |choice| {
            let a_placed = placed(shape, a, choice);
            each_source(&a_placed, b, a_placed.variables[a], &mut linked)
        }),
        (place, NOWHERE) => each_source(shape, b, place, &mut linked),
        (NOWHERE, cell) => each_target(shape, a, cell, &mut linked),
        (place, cell) if may_link(shape, cell, place) => linked(shape),
        _ => Ok(()),
    }
}

/// Both placed, the link of a's cell nowhere after it was nowhere or at b's place.
fn each_store<E>(
    shape: &Shape,
    a: usize,
    b: usize,
    visit: &mut impl FnMut(&Shape) -> Result<(), E>,
) -> Result<(), E> {
    let mut unlinked = |both: &Shape| {
        let mut before = *both;
        before.set_link_of(both.variables[a], NOWHERE);
        visit(&before)
    };
    match (shape.variables[a], shape.variables[b]) {
        (NULL | DANGLING, _) | (_, DANGLING) => Ok(()),
        (NOWHERE, NOWHERE) if a == b => each_own_source(shape, a, &mut unlinked),
        (NOWHERE, NOWHERE) => each_choice(shape, |choice| {
            if choice == At(NULL) {
                return Ok(());
            }
            let a_placed = placed(shape, a, choice);
            each_target(&a_placed, b, a_placed.variables[a], &mut unlinked)
        }),
        (NOWHERE, place) => each_source(shape, a, place, &mut unlinked),
        (cell, NOWHERE) => each_target(shape, b, cell, &mut unlinked),
        (cell, place) if may_link(shape, cell, place) => unlinked(shape),
        _ => Ok(()),
    }
}

/// Whether a cell's link is nowhere or at a place.
fn may_link(shape: &Shape, cell: u8, place: u8) -> bool {
    let link = shape.link_of(cell);
    link == NOWHERE || link == place
}

/// A variable placed at a cell whose link is nowhere or at a place.
fn each_source<E>(
    shape: &Shape,
    variable: usize,
    place: u8,
    visit: &mut impl FnMut(&Shape) -> Result<(), E>,
) -> Result<(), E> {
    let fits = |choice: Choice| match choice {
        At(cell) => cell >= CELL && may_link(shape, cell, place),
        Fresh => true,
        Within(source) => shape.link_of(source) == place,
    };
    each_choice(shape, |choice| match fits(choice) {
        true => visit(&placed(shape, variable, choice)),
        false => Ok(()),
    })
}

/// A variable placed at a cell whose link is nowhere or at that very cell.
fn each_own_source<E>(
    shape: &Shape,
    variable: usize,
    visit: &mut impl FnMut(&Shape) -> Result<(), E>,
) -> Result<(), E> {
    for cell in CELL..shape.fresh() {
        if may_link(shape, cell, cell) {
            visit(&placed(shape, variable, At(cell)))?;
        }
    }
    visit(&placed(shape, variable, Fresh))
}

/// A variable placed where the link of a cell stands, or anywhere if it stands nowhere.
fn each_target<E>(
    shape: &Shape,
    variable: usize,
    cell: u8,
    visit: &mut impl FnMut(&Shape) -> Result<(), E>,
) -> Result<(), E> {
    match shape.link_of(cell) {
        NOWHERE => each_choice(shape, |choice| visit(&placed(shape, variable, choice))),
        link => {
            if link != DANGLING {
                visit(&placed(shape, variable, At(link)))?;
            }
            visit(&placed(shape, variable, Within(cell)))
        }
    }
}

/// The cell of a goes, and a stands nowhere.
fn each_new<E>(
    shape: &Shape,
    a: usize,
    visit: &mut impl FnMut(&Shape) -> Result<(), E>,
) -> Result<(), E> {
    let mut without_a = *shape;
    without_a.variables[a] = NOWHERE;
    let stood_at = without_a.stood_at();
    let may_be_new =
        |cell: u8| stood_at >> cell & 1 == 0 && matches!(shape.link_of(cell), NOWHERE | DANGLING);
    let mut without = |cell: u8| {
        let mut before = without_a;
        before.remove_cell(cell);
        visit(&before)
    };
    match shape.variables[a] {
        NULL | DANGLING => Ok(()),
        NOWHERE => {
            for cell in CELL..shape.fresh() {
                if may_be_new(cell) {
                    without(cell)?;
                }
            }
            visit(&without_a)
        }
        cell if may_be_new(cell) => without(cell),
        _ => Ok(()),
    }
}

/// Links to * are forgotten, and a stands at a fresh cell. Each other variable that dangles did so
/// already or stood at that cell.
fn each_delete<E>(
    shape: &Shape,
    a: usize,
    visit: &mut impl FnMut(&Shape) -> Result<(), E>,
) -> Result<(), E> {
    if !matches!(shape.variables[a], NOWHERE | DANGLING) {
        return Ok(());
    }
    let mut before = placed(shape, a, Fresh);
    for link in &mut before.links {
        if *link == DANGLING {
            *link = NOWHERE;
        }
    }
    let numbered = before.variables.iter().enumerate();
    let dangling = numbered.fold(0, |mask: u32, (variable, &place)| {
        mask | u32::from(place == DANGLING) << variable
    });
    loop {
        visit(&before)?;
        if !count_up(&mut before, dangling, shape.fresh()) {
            return Ok(());
        }
    }
}

/// The next case of some variables, each at * or at the deleted cell: they count up as digits, the
/// highest variable the last. False after the last case.
fn count_up(before: &mut Shape, dangling: u32, deleted: u8) -> bool {
    let mut left = dangling;
    while left != 0 {
        let highest = left.ilog2();
        left ^= 1 << highest;
        let place = &mut before.variables[highest as usize];
        if *place == DANGLING {
            *place = deleted;
            return true;
        }
        *place = DANGLING;
    }
    false
}

#[cfg(test)]
pub mod tests {
    use std::collections::BTreeSet;
    use std::convert::Infallible;

    use super::*;
    use crate::random::Random;
    use crate::reference::heap::Place;
    use crate::reference::operation::{operation, KINDS};
    use crate::reference::predecessor::predecessors;
    use crate::reference::shape as reference;

    fn assert_same(shape: &reference::Shape, operation: Operation) -> usize {
        let mut ours = Vec::new();
        let compact = Shape::of_reference(shape);
        let Ok(()) = each_predecessor(&compact, operation, &mut |before| {
            ours.push(before.to_reference(shape.variables.len()));
            Ok::<(), Infallible>(())
        });
        assert_eq!(
            ours,
            predecessors(shape, operation),
            "{shape:?} {operation:?}"
        );
        ours.len()
    }

    /// A shape of up to so many cells, with no facts.
    pub fn random_shape(
        random: &mut Random,
        variables: usize,
        most_cells: usize,
    ) -> reference::Shape {
        let cells = random.below(most_cells + 1);
        let mut codes =
            |count| -> Vec<u64> { (0..count).map(|_| random.below(3 + cells) as u64).collect() };
        reference::Shape::of_codes(&codes(variables), &codes(cells))
    }

    #[test]
    fn predecessors_are_those_of_the_reference() {
        let mut random = Random::new(0x18_5eed);
        let mut made = 0;
        for _ in 0..20_000 {
            let shape = random_shape(&mut random, 3, 4);
            let kind = 1 + random.below(*KINDS.end() as usize) as u64;
            let (a, b) = (random.below(4) as u64, random.below(4) as u64);
            if let Some(operation) = operation(kind, a, b, 3) {
                made += assert_same(&shape, operation);
            }
        }
        assert!(made > 10_000, "only {made}");
    }

    #[test]
    fn every_number_of_cases_before_a_delete() {
        let mut random = Random::new(0x19_5eed);
        let mut counts = BTreeSet::new();
        for _ in 0..5_000 {
            let mut shape = random_shape(&mut random, 8, 2);
            for place in &mut shape.variables {
                if random.once_in(2) {
                    *place = Some(Place::Dangling);
                }
            }
            let a = 1 + random.below(8);
            counts.insert(assert_same(
                &shape,
                Operation {
                    kind: DELETE,
                    a,
                    b: 0,
                },
            ));
        }
        assert!(counts.into_iter().eq([0, 1, 2, 4, 8, 16, 32, 64, 128]));
    }
}
