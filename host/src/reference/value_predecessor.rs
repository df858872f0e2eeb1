//! The predecessors of a shape under an operation that tests or writes values (document 02, Wish 6).

use super::facts::Fact;
use super::heap::Place;
use super::operation::{Operation, BELOW_VALUE, COPY, EQUAL_VALUE, LARGER, READ, SMALLER};
use super::predecessor::{from_placings, placings};
use super::shape::Shape;

/// The variables that the operation names are placed, at cells; its fact is added and all are closed;
/// then the facts of the cell that it writes go.
pub fn before_values(shape: &Shape, operation: Operation) -> Vec<Shape> {
    let Operation { kind, a, b } = operation;
    match kind {
        READ => placings(shape, a)
            .into_iter()
            .filter_map(|placed| before_read(placed, a))
            .collect(),
        _ => from_placings(shape, a, b, |placed| {
            let (at_a, at_b) = (cell_of(&placed, a)?, cell_of(&placed, b)?);
            match at_a == at_b {
                true => before_at_one_cell(placed, kind, at_a),
                false => before_at_two_cells(placed, kind, at_a, at_b),
            }
        }),
    }
}

/// The cell that a variable stands at.
fn cell_of(shape: &Shape, variable: usize) -> Option<usize> {
    match shape.place(variable) {
        Some(Place::Cell(cell)) => Some(cell),
        _ => None,
    }
}

fn before_read(shape: Shape, a: usize) -> Option<Shape> {
    let cell = cell_of(&shape, a)?;
    Some(without_facts_of(shape.settled()?, cell))
}

fn before_at_two_cells(shape: Shape, kind: u64, a: usize, b: usize) -> Option<Shape> {
    match kind {
        EQUAL_VALUE => learning(shape, Fact::equal(a, b)),
        BELOW_VALUE => learning(shape, Fact::below(a, b)),
        COPY => Some(without_facts_of(learning(shape, Fact::equal(a, b))?, a)),
        LARGER => Some(without_facts_of(learning(shape, Fact::below(b, a))?, a)),
        SMALLER => Some(without_facts_of(learning(shape, Fact::below(a, b))?, a)),
        _ => unreachable!("an operation on two values has such a kind"),
    }
}

/// The same where both operands name one cell.
fn before_at_one_cell(shape: Shape, kind: u64, cell: usize) -> Option<Shape> {
    match kind {
        EQUAL_VALUE | COPY => learning(shape, Fact::equal(cell, cell)),
        BELOW_VALUE => learning(shape, Fact::below(cell, cell)),
        LARGER | SMALLER => {
            let without = without_facts_of(shape.settled()?, cell);
            Some(with_fact(without, Fact::has_value(cell)))
        }
        _ => unreachable!("an operation on two values has such a kind"),
    }
}

/// The shape with one fact more and all closed; nothing where a cell is then below itself.
fn learning(shape: Shape, fact: Fact) -> Option<Shape> {
    with_fact(shape, fact).settled()
}

fn with_fact(mut shape: Shape, fact: Fact) -> Shape {
    shape.facts.push(fact);
    shape.facts.sort();
    shape
}

fn without_facts_of(mut shape: Shape, cell: usize) -> Shape {
    shape.facts.retain(|fact| !fact.names(cell));
    shape
}

#[cfg(test)]
mod tests {
    use super::*;
    use crate::reference::facts::closed;
    use crate::reference::operation::VALUE_KINDS;

    /// The facts of the predecessors of a shape with cells in no order, with variables at some of them.
    fn before(cells: &[usize], count: usize, facts: &[Fact], by: (u64, usize, usize)) -> Facts {
        let codes: Vec<u64> = cells.iter().map(|&cell| 3 + cell as u64).collect();
        let shape = Shape::of_codes(&codes, &vec![0; count]).with_facts(facts.to_vec());
        let (kind, a, b) = by;
        let all = before_values(&shape, Operation { kind, a, b });
        for one in &all {
            assert_eq!(
                (&one.variables, &one.links),
                (&shape.variables, &shape.links)
            );
        }
        all.into_iter().map(|one| one.facts).collect()
    }

    /// Those of each.
    type Facts = Vec<Vec<Fact>>;

    #[test]
    fn a_test_adds_its_fact() {
        let known = [Fact::below(1, 2)];
        let learned = |fact| vec![closed(&[known[0], fact])];
        let at = |by| before(&[0, 1], 3, &known, by);
        assert_eq!(at((EQUAL_VALUE, 1, 2)), learned(Fact::equal(0, 1)));
        assert_eq!(at((BELOW_VALUE, 1, 2)), learned(Fact::below(0, 1)));
        assert_eq!(at((BELOW_VALUE, 2, 1)), learned(Fact::below(1, 0)));
        assert_eq!(
            before(&[2, 1], 3, &known, (BELOW_VALUE, 1, 2)),
            Facts::new()
        );
        assert_eq!(
            before(&[2, 1], 3, &known, (EQUAL_VALUE, 1, 2)),
            Facts::new()
        );
        assert_eq!(
            before(&[1, 2], 3, &known, (BELOW_VALUE, 1, 2)),
            vec![closed(&known)]
        );
    }

    /// Of cells 0 and 1, whose order to cells 2 and 3 is known, 0 is written; what follows for the
    /// others stays.
    #[test]
    fn the_facts_of_a_written_cell_go() {
        let known = [Fact::below(0, 2), Fact::equal(1, 3)];
        let at = |by| before(&[0, 1], 4, &known, by);
        let of_others = |facts: &[Fact]| vec![closed(&[&known[1..], facts].concat())];
        // Cell 2 has a value, as its fact with cell 0 told before that went.
        assert_eq!(at((READ, 1, 0)), of_others(&[Fact::has_value(2)]));
        assert_eq!(at((COPY, 1, 2)), of_others(&[Fact::below(1, 2)]));
        assert_eq!(at((LARGER, 1, 2)), of_others(&[Fact::below(1, 2)]));
        assert_eq!(at((SMALLER, 1, 2)), of_others(&[Fact::has_value(2)]));
    }

    #[test]
    fn what_is_read_has_a_value() {
        for kind in [COPY, LARGER, SMALLER] {
            let expected = vec![vec![Fact::has_value(1)]];
            assert_eq!(before(&[0, 1], 2, &[], (kind, 1, 2)), expected);
        }
        assert_eq!(before(&[0], 1, &[], (READ, 1, 0)), vec![vec![]]);
    }

    /// What is written has to fit the facts, although they go.
    #[test]
    fn what_cannot_be_written_is_dropped() {
        let below = [Fact::below(0, 1)];
        let equal = [Fact::equal(0, 1)];
        let none = Facts::new();
        assert_eq!(before(&[0, 1], 2, &below, (COPY, 1, 2)), none);
        assert_eq!(before(&[0, 1], 2, &below, (LARGER, 1, 2)), none);
        assert_eq!(before(&[1, 0], 2, &below, (SMALLER, 1, 2)), none);
        assert_eq!(before(&[0, 1], 2, &equal, (LARGER, 1, 2)), none);
        assert_eq!(before(&[0, 1], 2, &equal, (SMALLER, 1, 2)), none);
        let value = vec![vec![Fact::has_value(1)]];
        assert_eq!(before(&[0, 1], 2, &below, (SMALLER, 1, 2)), value);
        assert_eq!(before(&[0, 1], 2, &equal, (COPY, 1, 2)), value);
    }

    /// By one variable, and by two at one cell.
    #[test]
    fn both_operands_at_one_cell() {
        let known = [Fact::below(0, 1), Fact::equal(0, 2)];
        for (cells, b) in [(&[0][..], 1), (&[0, 0], 2)] {
            let at = |kind| before(cells, 3, &known, (kind, 1, b));
            assert_eq!(at(BELOW_VALUE), Facts::new());
            assert_eq!(at(EQUAL_VALUE), vec![closed(&known)]);
            assert_eq!(at(COPY), vec![closed(&known)]);
            for kind in [LARGER, SMALLER] {
                let others = [Fact::has_value(0), Fact::below(2, 1)];
                assert_eq!(at(kind), vec![closed(&others)]);
            }
            for kind in [EQUAL_VALUE, COPY, LARGER, SMALLER] {
                let only = before(cells, 1, &[], (kind, 1, b));
                assert_eq!(only, vec![vec![Fact::has_value(0)]]);
            }
            assert_eq!(before(cells, 1, &[], (BELOW_VALUE, 1, b)), Facts::new());
        }
    }

    /// The first value is copied from the second, then tested: before both, the second was as tested.
    #[test]
    fn a_copy_then_a_test() {
        let before_both = |kind, b| -> Facts {
            let tested = before(&[0, 1, 2], 3, &[], (kind, 1, b));
            let copied = |facts: &Vec<Fact>| before(&[0, 1, 2], 3, facts, (COPY, 1, 2));
            tested.iter().flat_map(copied).collect()
        };
        let below = closed(&[Fact::below(1, 2)]);
        assert_eq!(before_both(BELOW_VALUE, 3), vec![below]);
        let equal = closed(&[Fact::equal(1, 2)]);
        assert_eq!(before_both(EQUAL_VALUE, 3), vec![equal]);
        assert_eq!(before_both(EQUAL_VALUE, 2), vec![vec![Fact::has_value(1)]]);
        assert_eq!(before_both(BELOW_VALUE, 2), Facts::new());
    }

    #[test]
    fn contradictory_facts_have_nothing_before_them() {
        let contradictory = [Fact::below(1, 2), Fact::below(2, 1)];
        for kind in VALUE_KINDS {
            for b in [1, 2] {
                let b = if kind == READ { 0 } else { b };
                assert_eq!(
                    before(&[0, 1], 3, &contradictory, (kind, 1, b)),
                    Facts::new()
                );
            }
        }
    }

    /// Two variables nowhere, a linked cell: # is left out, and so are cells that fit no longer.
    #[test]
    fn operands_are_placed_at_cells() {
        let shape = Shape::of_codes(&[0, 0], &[1]).with_facts(vec![Fact::has_value(0)]);
        let all = |kind, a, b| before_values(&shape, Operation { kind, a, b });
        let places = |shapes: &[Shape]| -> Vec<Vec<u64>> {
            let numbers = |shape: &Shape| {
                let codes = shape.variables.iter().chain(&shape.links);
                codes.map(|place| place.map_or(0, Place::code)).collect()
            };
            shapes.iter().map(numbers).collect()
        };
        let read = places(&all(READ, 1, 0));
        assert_eq!(read, [vec![3, 0, 1], vec![4, 0, 1, 0], vec![4, 0, 4, 1]]);
        let copied = places(&all(COPY, 1, 2));
        let expected: [&[u64]; 12] = [
            &[3, 3, 1],
            &[3, 4, 1, 0],
            &[3, 4, 4, 1],
            &[4, 3, 1, 0],
            &[4, 4, 1, 0],
            &[4, 5, 1, 0, 0],
            &[4, 5, 5, 0, 1],
            &[4, 3, 4, 1],
            &[4, 4, 4, 1],
            &[4, 5, 4, 1, 0],
            &[4, 5, 5, 1, 4],
            &[4, 5, 4, 5, 1],
        ];
        assert_eq!(copied, expected);
        let below = places(&all(BELOW_VALUE, 1, 2));
        let different = expected.iter().filter(|codes| codes[0] != codes[1]);
        assert!(below.iter().map(|codes| &codes[..]).eq(different.copied()));
        let null = Shape::of_codes(&[1, 2], &[]);
        for kind in VALUE_KINDS {
            for a in [1, 2] {
                let b = if kind == READ { 0 } else { a };
                assert_eq!(before_values(&null, Operation { kind, a, b }), vec![]);
            }
        }
    }
}
