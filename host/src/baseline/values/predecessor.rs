//! The predecessors of a shape with facts, with theirs. Facts have with them all that follows.

use super::facts::Facts;
use crate::baseline::predecessor::{self, each_choice, placed, Choice};
use crate::baseline::shape::{Shape, CELL, DANGLING, NOWHERE, NULL};
use crate::reference::operation::{Operation, BELOW_VALUE, COPY, EQUAL_VALUE, LARGER, NEW, READ};
use crate::reference::operation::{SMALLER, VALUE_KINDS};

/// Visits the predecessors of a shape in which no cell is below itself, until the visitor gives an
/// error.
pub fn each_predecessor<E>(
    shape: &Shape,
    facts: &Facts,
    operation: Operation,
    visit: &mut impl FnMut(&Shape, &Facts) -> Result<(), E>,
) -> Result<(), E> {
    let Operation { kind, a, b } = operation;
    match kind {
        NEW => each_new(shape, facts, a, visit),
        BELOW_VALUE if a == b => Ok(()),
        READ => each_at_cell(shape, a, |cell| Some(facts.forgetting(cell)), visit),
        _ if VALUE_KINDS.contains(&kind) => {
            let learned = |x: usize, y: usize| learned(facts, kind, x, y);
            match a == b {
                true => each_at_cell(shape, a, |cell| learned(cell, cell), visit),
                false => each_at_cells(shape, a, b, learned, visit),
            }
        }
        _ => predecessor::each_predecessor(shape, operation, &mut |before| visit(before, facts)),
    }
}

/// The number of a cell.
#[inline(always)]
fn number(code: u8) -> usize {
    usize::from(code - CELL)
}

/// The facts before an operation on the values of cells x and y; nothing where a cell would be below
/// itself.
#[inline(always)]
fn learned(facts: &Facts, kind: u64, x: usize, y: usize) -> Option<Facts> {
    match kind {
        BELOW_VALUE => (!facts.at_most(y, x)).then(|| facts.with_below(x, y)),
        EQUAL_VALUE | COPY if x == y => Some(facts.with_own(x)),
        EQUAL_VALUE => (!facts.differ(x, y)).then(|| facts.with_equal(x, y)),
        COPY => (!facts.differ(x, y)).then(|| facts.with_equal(x, y).forgetting(x)),
        LARGER | SMALLER if x == y => Some(facts.forgetting(x).with_own(x)),
        LARGER => (!facts.at_most(x, y)).then(|| facts.with_below(y, x).forgetting(x)),
        SMALLER => (!facts.at_most(y, x)).then(|| facts.with_below(x, y).forgetting(x)),
        _ => unreachable!("an operation on two values has such a kind"),
    }
}

/// The cell of a, which has no value, goes, and a stands nowhere.
fn each_new<E>(
    shape: &Shape,
    facts: &Facts,
    a: usize,
    visit: &mut impl FnMut(&Shape, &Facts) -> Result<(), E>,
) -> Result<(), E> {
    let mut without_a = *shape;
    without_a.variables[a] = NOWHERE;
    let not_new = without_a.stood_at() | u32::from(facts.with_value()) << CELL;
    let mut without = |cell: u8| {
        if not_new >> cell & 1 == 1 || !matches!(shape.link_of(cell), NOWHERE | DANGLING) {
            return Ok(());
        }
        let mut before = without_a;
        before.remove_cell(cell);
        visit(&before, &facts.without_cell(number(cell)))
    };
    match shape.variables[a] {
        NULL | DANGLING => Ok(()),
        NOWHERE => {
            (CELL..shape.fresh()).try_for_each(&mut without)?;
            visit(&without_a, facts)
        }
        cell => without(cell),
    }
}

/// A variable placed at a cell that gives facts.
#[inline(always)]
fn each_at_cell<E>(
    shape: &Shape,
    variable: usize,
    learned: impl Fn(usize) -> Option<Facts>,
    visit: &mut impl FnMut(&Shape, &Facts) -> Result<(), E>,
) -> Result<(), E> {
    match shape.variables[variable] {
        NULL | DANGLING => Ok(()),
        NOWHERE => each_choice(shape, |choice| {
            let cell = match choice {
                Choice::At(NULL) => return Ok(()),
                Choice::At(cell) => cell,
                Choice::Fresh | Choice::Within(_) => shape.fresh(),
            };
            match learned(number(cell)) {
                Some(facts) => visit(&placed(shape, variable, choice), &facts),
                None => Ok(()),
            }
        }),
        cell => match learned(number(cell)) {
            Some(facts) => visit(shape, &facts),
            None => Ok(()),
        },
    }
}

/// Two variables placed at cells that give facts.
#[inline(always)]
fn each_at_cells<E>(
    shape: &Shape,
    a: usize,
    b: usize,
    learned: impl Fn(usize, usize) -> Option<Facts>,
    visit: &mut impl FnMut(&Shape, &Facts) -> Result<(), E>,
) -> Result<(), E> {
    match (shape.variables[a], shape.variables[b]) {
        (NULL | DANGLING, _) | (_, NULL | DANGLING) => Ok(()),
        (NOWHERE, NOWHERE) => each_choice(shape, |choice| match choice {
            Choice::At(NULL) => Ok(()),
            _ => {
                let a_placed = placed(shape, a, choice);
                let x = number(a_placed.variables[a]);
                each_at_cell(&a_placed, b, |y| learned(x, y), visit)
            }
        }),
        (NOWHERE, y) => each_at_cell(shape, a, |x| learned(x, number(y)), visit),
        (x, _) => each_at_cell(shape, b, |y| learned(number(x), y), visit),
    }
}

#[cfg(test)]
mod tests {
    use std::convert::Infallible;

    use super::super::facts::tests::{facts_of, random_facts};
    use super::*;
    use crate::baseline::predecessor::tests::random_shape;
    use crate::random::Random;
    use crate::reference::operation::operation;
    use crate::reference::predecessor::predecessors;
    use crate::reference::shape as reference;
    use crate::reference::version::Version;

    fn assert_same(shape: &reference::Shape, operation: Operation) -> usize {
        let mut ours = Vec::new();
        let facts = Facts::of(shape.facts.iter().copied()).closed();
        let compact = Shape::of_reference(shape);
        if !facts.clash() {
            let Ok(()) = each_predecessor(&compact, &facts, operation, &mut |before, facts| {
                let before = before.to_reference(shape.variables.len());
                ours.push(before.with_facts(facts_of(facts)));
                Ok::<(), Infallible>(())
            });
        }
        assert_eq!(
            ours,
            predecessors(shape, operation),
            "{shape:?} {operation:?}"
        );
        ours.len()
    }

    /// A shape of three variables and up to so many cells, with a few facts.
    fn random_valued(random: &mut Random, most_cells: usize) -> reference::Shape {
        let shape = random_shape(random, 3, most_cells);
        let most = random.pick(&[0, 1, 3, 8]);
        match shape.cells() {
            0 => shape,
            cells => shape.with_facts(random_facts(random, cells, most)),
        }
    }

    #[test]
    fn predecessors_are_those_of_the_reference() {
        let mut random = Random::new(0x22_5eed);
        let mut made = [0; 14];
        for turn in 0..40_000 {
            let most_cells = if turn % 8 == 0 { 12 } else { 4 };
            let shape = random_valued(&mut random, most_cells);
            let kind = 1 + random.below(*Version::Two.kinds().end() as usize) as u64;
            let (a, b) = (random.below(4) as u64, random.below(4) as u64);
            if let Some(operation) = operation(kind, a, b, 3) {
                made[kind as usize] += assert_same(&shape, operation);
            }
        }
        assert!(made[1..].iter().all(|&count| count > 100), "{made:?}");
    }
}
