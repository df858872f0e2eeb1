//! The predecessors of a shape under an operation, in their order.

use super::heap::Place;
use super::operation::{
    Operation, ASSIGN, DELETE, DIFFERENT, EQUAL, LOAD, NEW, STORE, VALUE_KINDS,
};
use super::shape::Shape;
use super::value_predecessor::before_values;

/// All predecessors: every placing is made, and the ones that don't fit are dropped, those too in which
/// the facts put a cell below itself. If those of the shape do, all are.
pub fn predecessors(shape: &Shape, operation: Operation) -> Vec<Shape> {
    let Some(shape) = shape.clone().settled() else {
        return Vec::new();
    };
    match VALUE_KINDS.contains(&operation.kind) {
        true => before_values(&shape, operation),
        false => {
            let before = before_places(&shape, operation).into_iter();
            before.filter_map(Shape::settled).collect()
        }
    }
}

/// The predecessors under an operation that neither tests nor writes values, with the facts as they
/// are.
fn before_places(shape: &Shape, operation: Operation) -> Vec<Shape> {
    let Operation { kind, a, b } = operation;
    match kind {
        EQUAL => from_placings(shape, a, b, |placed| {
            (placed.place(a) == placed.place(b)).then_some(placed)
        }),
        DIFFERENT => from_placings(shape, a, b, |placed| {
            (placed.place(a) != placed.place(b)).then_some(placed)
        }),
        ASSIGN => from_placings(shape, a, b, |placed| before_assign(placed, a, b)),
        LOAD if a == b => {
            let helper = shape.variables.len() + 1;
            from_placings(&with_helper(shape), a, helper, |placed| {
                before_load(placed, a, helper).map(|shape| helper_becomes(shape, a))
            })
        }
        LOAD => from_placings(shape, a, b, |placed| before_load(placed, a, b)),
        STORE => from_placings(shape, a, b, |placed| before_store(placed, a, b)),
        NEW => placings(shape, a)
            .into_iter()
            .filter_map(|placed| before_new(placed, a))
            .collect(),
        DELETE => before_delete(shape, a),
        _ => unreachable!("an operation has a kind of the table"),
    }
}

/// Places a, then b, starting from each result in turn; what `before` gives nothing for is dropped.
pub fn from_placings(
    shape: &Shape,
    a: usize,
    b: usize,
    before: impl Fn(Shape) -> Option<Shape>,
) -> Vec<Shape> {
    let after_a = placings(shape, a);
    let placed = after_a.iter().flat_map(|shape| placings(shape, b));
    placed.filter_map(before).collect()
}

/// The shapes in which an operand has a place other than *.
pub fn placings(shape: &Shape, operand: usize) -> Vec<Shape> {
    match shape.place(operand) {
        Some(Place::Dangling) => vec![],
        Some(_) => vec![shape.clone()],
        None => {
            let fresh = Place::Cell(shape.cells());
            let grown = with_cell(shape, None);
            let mut results: Vec<Shape> = (0..shape.cells())
                .map(|cell| with_variable(shape, operand, Place::Cell(cell)))
                .collect();
            results.push(with_variable(shape, operand, Place::Null));
            results.push(with_variable(&grown, operand, fresh));
            for source in 0..shape.cells() {
                if shape.links[source].is_some() {
                    let mut between = with_cell(shape, shape.links[source]);
                    between.links[source] = Some(fresh);
                    results.push(with_variable(&between, operand, fresh));
                }
            }
            results
        }
    }
}

fn with_variable(shape: &Shape, variable: usize, place: Place) -> Shape {
    let mut shape = shape.clone();
    shape.variables[variable - 1] = Some(place);
    shape
}

/// The shape with a fresh cell, which takes the next number.
fn with_cell(shape: &Shape, link: Option<Place>) -> Shape {
    let mut shape = shape.clone();
    shape.links.push(link);
    shape
}

fn before_assign(mut shape: Shape, a: usize, b: usize) -> Option<Shape> {
    if shape.place(a) != shape.place(b) {
        return None;
    }
    if a != b {
        shape.variables[a - 1] = None;
    }
    Some(shape)
}

/// The operand's cell, if its link is nowhere or at `place`.
fn cell_that_may_link(shape: &Shape, operand: usize, place: Option<Place>) -> Option<usize> {
    match shape.place(operand) {
        Some(Place::Cell(cell)) if shape.links[cell].is_none() || shape.links[cell] == place => {
            Some(cell)
        }
        _ => None,
    }
}

fn before_load(mut shape: Shape, a: usize, b: usize) -> Option<Shape> {
    let place = shape.place(a);
    let cell = cell_that_may_link(&shape, b, place)?;
    shape.links[cell] = place;
    shape.variables[a - 1] = None;
    Some(shape)
}

/// One more variable, without a place, that plays b where a and b are one.
fn with_helper(shape: &Shape) -> Shape {
    let mut shape = shape.clone();
    shape.variables.push(None);
    shape
}

/// The helper goes, and a stands where it stood.
fn helper_becomes(mut shape: Shape, a: usize) -> Shape {
    shape.variables[a - 1] = shape.variables.pop().flatten();
    shape
}

fn before_store(mut shape: Shape, a: usize, b: usize) -> Option<Shape> {
    let cell = cell_that_may_link(&shape, a, shape.place(b))?;
    shape.links[cell] = None;
    Some(shape)
}

fn before_new(mut shape: Shape, a: usize) -> Option<Shape> {
    let Some(Place::Cell(cell)) = shape.variables[a - 1].take() else {
        return None;
    };
    let mut places = shape.variables.iter().chain(&shape.links);
    let stood_at = places.any(|&place| place == Some(Place::Cell(cell)));
    let has_value = shape.facts.iter().any(|fact| fact.names(cell));
    if stood_at || has_value || !matches!(shape.links[cell], None | Some(Place::Dangling)) {
        return None;
    }
    shape.links.remove(cell);
    let moved_down = |number: usize| number - usize::from(number > cell);
    for fact in &mut shape.facts {
        *fact = fact.renamed(moved_down);
    }
    for place in shape.variables.iter_mut().chain(&mut shape.links) {
        if let Some(Place::Cell(number)) = place {
            *number = moved_down(*number);
        }
    }
    Some(shape)
}

/// A fresh cell is added, a stands at it, and links to * are forgotten. Each other variable at * gives
/// two cases: it was at * already, or it stood at that cell. The lowest changes slowest.
fn before_delete(shape: &Shape, a: usize) -> Vec<Shape> {
    if !matches!(shape.place(a), None | Some(Place::Dangling)) {
        return vec![];
    }
    let deleted = Place::Cell(shape.cells());
    let mut before = with_variable(&with_cell(shape, None), a, deleted);
    for link in &mut before.links {
        if *link == Some(Place::Dangling) {
            *link = None;
        }
    }
    let variables = 1..=shape.variables.len();
    let dangling = variables.filter(|&v| v != a && shape.place(v) == Some(Place::Dangling));
    dangling.fold(vec![before], |cases, variable| {
        let both = |already: Shape| {
            let stood_there = with_variable(&already, variable, deleted);
            [already, stood_there]
        };
        cases.into_iter().flat_map(both).collect()
    })
}

#[cfg(test)]
mod tests {
    use super::*;
    use crate::reference::facts::{closed, Fact};

    fn before(variables: &[u64], links: &[u64], kind: u64, a: usize, b: usize) -> Vec<Shape> {
        predecessors(&Shape::of_codes(variables, links), Operation { kind, a, b })
    }

    /// Shapes as pairs of codes of variables and codes of links.
    fn shapes(rows: &[(&[u64], &[u64])]) -> Vec<Shape> {
        rows.iter()
            .map(|(variables, links)| Shape::of_codes(variables, links))
            .collect()
    }

    #[test]
    fn placings_stand_in_order() {
        let shape = Shape::of_codes(&[0, 5], &[0, 5, 2]);
        let expected = shapes(&[
            (&[3, 5], &[0, 5, 2]),
            (&[4, 5], &[0, 5, 2]),
            (&[5, 5], &[0, 5, 2]),
            (&[1, 5], &[0, 5, 2]),
            (&[6, 5], &[0, 5, 2, 0]),
            (&[6, 5], &[0, 6, 2, 5]),
            (&[6, 5], &[0, 5, 6, 2]),
        ]);
        assert_eq!(placings(&shape, 1), expected);
        assert_eq!(placings(&shape, 2), vec![shape.clone()]);
        assert_eq!(placings(&shape, 0), vec![shape]);
        assert_eq!(placings(&Shape::of_codes(&[2], &[]), 1), vec![]);
    }

    #[test]
    fn tests_of_two_unplaced_variables() {
        let different = shapes(&[(&[1, 3], &[0]), (&[3, 1], &[0]), (&[3, 4], &[0, 0])]);
        assert_eq!(before(&[0, 0], &[], DIFFERENT, 1, 2), different);
        let equal = shapes(&[(&[1, 1], &[]), (&[3, 3], &[0])]);
        assert_eq!(before(&[0, 0], &[], EQUAL, 1, 2), equal);
        assert_eq!(before(&[0, 2], &[], DIFFERENT, 1, 2), vec![]);
    }

    #[test]
    fn assigning() {
        assert_eq!(
            before(&[1, 0], &[], ASSIGN, 1, 2),
            shapes(&[(&[0, 1], &[])])
        );
        assert_eq!(
            before(&[1, 0], &[], ASSIGN, 1, 0),
            shapes(&[(&[0, 0], &[])])
        );
        assert_eq!(before(&[2, 0], &[], ASSIGN, 1, 2), vec![]);
        assert_eq!(before(&[3], &[0], ASSIGN, 1, 1), shapes(&[(&[3], &[0])]));
        assert_eq!(before(&[3], &[0], ASSIGN, 1, 0), vec![]);
    }

    #[test]
    fn following_with_one_variable() {
        assert_eq!(before(&[1], &[], LOAD, 1, 1), shapes(&[(&[3], &[1])]));
        let own_or_fresh = shapes(&[(&[3], &[3]), (&[4], &[0, 3])]);
        assert_eq!(before(&[3], &[0], LOAD, 1, 1), own_or_fresh);
    }

    #[test]
    fn following_with_two_variables() {
        let expected = shapes(&[(&[0, 3], &[1]), (&[0, 4], &[1, 1])]);
        assert_eq!(
            before(&[1, 0], &[1], LOAD, 1, 2),
            [&expected[..], &shapes(&[(&[0, 4], &[4, 1])])].concat()
        );
        assert_eq!(before(&[1, 3], &[2], LOAD, 1, 2), vec![]);
    }

    #[test]
    fn linking() {
        assert_eq!(
            before(&[3, 1], &[1], STORE, 1, 2),
            shapes(&[(&[3, 1], &[0])])
        );
        assert_eq!(before(&[3, 1], &[2], STORE, 1, 2), vec![]);
        assert_eq!(before(&[1, 1], &[], STORE, 1, 2), vec![]);
        let b_in_the_link = shapes(&[(&[3, 1], &[0]), (&[3, 4], &[0, 1])]);
        assert_eq!(before(&[3, 0], &[1], STORE, 1, 2), b_in_the_link);
    }

    #[test]
    fn new_cells() {
        assert_eq!(before(&[3], &[3], NEW, 1, 0), vec![]);
        assert_eq!(before(&[3], &[2], NEW, 1, 0), shapes(&[(&[0], &[])]));
        assert_eq!(before(&[3, 3], &[0], NEW, 1, 0), vec![]);
        assert_eq!(before(&[3], &[1], NEW, 1, 0), vec![]);
        assert_eq!(before(&[1], &[], NEW, 1, 0), vec![]);
        let moved_down = shapes(&[(&[0, 3], &[4, 1])]);
        assert_eq!(before(&[3, 4], &[2, 5, 1], NEW, 1, 0), moved_down);
        let loose_or_other = shapes(&[(&[0], &[]), (&[0], &[0])]);
        assert_eq!(before(&[0], &[0], NEW, 1, 0), loose_or_other);
    }

    #[test]
    fn deleting_forgets_links_that_dangle() {
        let expected = shapes(&[(&[5, 0, 3], &[0, 1, 0])]);
        assert_eq!(before(&[2, 0, 3], &[2, 1], DELETE, 1, 0), expected);
        assert_eq!(before(&[0, 0, 3], &[2, 1], DELETE, 1, 0), expected);
        assert_eq!(before(&[1], &[], DELETE, 1, 0), vec![]);
        assert_eq!(before(&[3], &[0], DELETE, 1, 0), vec![]);
        assert_eq!(before(&[3, 2], &[0], DELETE, 1, 0), vec![]);
    }

    #[test]
    fn facts_are_closed_before_every_operation() {
        let listed = vec![Fact::below(0, 1), Fact::equal(1, 2)];
        let shape = Shape::of_codes(&[0, 3], &[0, 1, 4]).with_facts(listed.clone());
        let contradictory = shape.clone().with_facts(vec![Fact::below(1, 1)]);
        for (kind, a, b) in [
            (EQUAL, 1, 0),
            (DIFFERENT, 1, 2),
            (ASSIGN, 1, 2),
            (LOAD, 1, 2),
            (LOAD, 1, 1),
            (STORE, 2, 1),
            (NEW, 1, 0),
            (DELETE, 1, 0),
        ] {
            let operation = Operation { kind, a, b };
            let all = predecessors(&shape, operation);
            assert!(!all.is_empty(), "{operation:?}");
            assert!(all.iter().all(|before| before.facts == closed(&listed)));
            assert_eq!(predecessors(&contradictory, operation), vec![]);
        }
    }

    #[test]
    fn a_cell_with_a_fact_is_not_new() {
        let with = |variables: &[u64], cells: usize, facts: &[Fact]| {
            let shape = Shape::of_codes(variables, &vec![0; cells]).with_facts(facts.to_vec());
            let (kind, a, b) = (NEW, 1, 0);
            predecessors(&shape, Operation { kind, a, b })
        };
        assert_eq!(with(&[3], 1, &[Fact::has_value(0)]), vec![]);
        assert_eq!(with(&[3], 2, &[Fact::below(1, 0)]), vec![]);
        let facts_moved_down =
            Shape::of_codes(&[0, 3], &[0, 0]).with_facts(closed(&[Fact::below(1, 0)]));
        let facts = [Fact::below(2, 0)];
        assert_eq!(with(&[4, 3], 3, &facts), vec![facts_moved_down]);
        let nowhere = with(&[0], 1, &[Fact::has_value(0)]);
        let fresh = Shape::of_codes(&[0], &[0]).with_facts(vec![Fact::has_value(0)]);
        assert_eq!(nowhere, vec![fresh]);
    }

    /// The other variable was at * already, or stood at the deleted cell.
    #[test]
    fn deleting_with_a_variable_at_the_cell() {
        let two = shapes(&[(&[3, 2], &[0]), (&[3, 3], &[0])]);
        assert_eq!(before(&[2, 2], &[], DELETE, 1, 0), two);
        assert_eq!(before(&[0, 2], &[], DELETE, 1, 0), two);
        let of_second = shapes(&[(&[2, 3], &[0]), (&[3, 3], &[0])]);
        assert_eq!(before(&[2, 2], &[], DELETE, 2, 0), of_second);
        let beside_a_list = shapes(&[(&[2, 3, 5], &[4, 0, 0]), (&[5, 3, 5], &[4, 0, 0])]);
        assert_eq!(before(&[2, 3, 2], &[4, 2], DELETE, 3, 0), beside_a_list);
    }

    #[test]
    fn the_lowest_dangling_variable_changes_slowest() {
        let four = shapes(&[
            (&[2, 3, 2, 1], &[0]),
            (&[2, 3, 3, 1], &[0]),
            (&[3, 3, 2, 1], &[0]),
            (&[3, 3, 3, 1], &[0]),
        ]);
        assert_eq!(before(&[2, 0, 2, 1], &[], DELETE, 2, 0), four);
    }

    /// With any variables at * and a any of them, case k has the lowest such variable at the deleted
    /// cell exactly if the highest bit of k is 1, and so on.
    #[test]
    fn cases_are_counted_in_binary() {
        for dangling in 0..256u32 {
            for a in 1..=8 {
                let is_at = |variable: usize| dangling >> (variable - 1) & 1 == 1;
                let places: Vec<u64> = (1..=8).map(|v| if is_at(v) { 2 } else { 0 }).collect();
                let others: Vec<usize> = (1..=8).filter(|&v| v != a && is_at(v)).collect();
                let cases = before(&places, &[], DELETE, a, 0);
                assert_eq!(cases.len(), 1 << others.len());
                for (number, case) in cases.iter().enumerate() {
                    let mut expected = places.clone();
                    expected[a - 1] = 3;
                    for (bit, &variable) in others.iter().rev().enumerate() {
                        expected[variable - 1] = 2 + (number >> bit & 1) as u64;
                    }
                    assert_eq!(*case, Shape::of_codes(&expected, &[0]));
                }
            }
        }
        assert_eq!(before(&[2; 8], &[0; 12], DELETE, 4, 0).len(), 128);
    }
}
