//! Shapes with one thing less.

use super::shape::Shape;
use crate::baseline::shape::{Shape as Places, CELL, NOWHERE, NULL};

pub fn without_variable(shape: &Shape, variable: usize) -> Option<Shape> {
    let mut simpler = *shape;
    simpler.places.variables[variable] = NOWHERE;
    (simpler != *shape).then_some(simpler)
}

pub fn without_link(shape: &Shape, cell: u8) -> Option<Shape> {
    let mut simpler = *shape;
    simpler.places.set_link_of(cell, NOWHERE);
    (simpler != *shape).then_some(simpler)
}

/// Without a cell that has no link, no fact and that nothing stands at.
pub fn without_loose(shape: &Shape, cell: u8) -> Option<Shape> {
    let places = &shape.places;
    let is_loose = places.link_of(cell) == NOWHERE && places.stood_at() >> cell & 1 == 0;
    (is_loose && !shape.has_fact(cell)).then(|| shape.without_cell(cell))
}

/// Without a cell that has no fact and that no variable and one link stands at, which now stands where
/// the cell's link did.
pub fn without_middle(shape: &Shape, cell: u8) -> Option<Shape> {
    let places = &shape.places;
    let link = places.link_of(cell);
    let mut sources = (CELL..places.fresh()).filter(|&source| places.link_of(source) == cell);
    match (sources.next(), sources.next()) {
        (Some(source), None)
            if source != cell
                && link != NOWHERE
                && !places.variables.contains(&cell)
                && !shape.has_fact(cell) =>
        {
            let mut simpler = *shape;
            simpler.places.set_link_of(source, link);
            Some(simpler.without_cell(cell))
        }
        _ => None,
    }
}

/// Without a cell that nothing stands at, whatever its link.
pub fn without_unmet(shape: &Shape, cell: u8) -> Option<Shape> {
    without_loose(&without_link(shape, cell).unwrap_or(*shape), cell)
}

/// Without the lost cells if they are at most so many, else as it is.
pub fn without_lost(shape: &Shape, most: usize) -> Shape {
    let lost = lost_cells(&shape.places);
    let mut simpler = *shape;
    if lost.len() > most {
        return simpler;
    }
    for &cell in &lost {
        simpler.places.set_link_of(cell, NOWHERE);
        simpler = simpler.without_value(cell);
    }
    // The highest first, so that the others keep their codes.
    for &cell in lost.iter().rev() {
        simpler = simpler.without_cell(cell);
    }
    simpler
}

/// The cells that no variable leads to, and from which links lead to # or nowhere through such cells.
fn lost_cells(places: &Places) -> Vec<u8> {
    let mut met = 0;
    for &start in &places.variables[1..] {
        met |= walk(places, start, met).0;
    }
    let is_lost = |&cell: &u8| {
        let (passed, end) = walk(places, cell, met);
        passed >> cell & 1 == 1 && matches!(end, NOWHERE | NULL)
    };
    (CELL..places.fresh()).filter(is_lost).collect()
}

/// Follows links from a place up to a marked cell, one passed before or the end: which cells are passed,
/// a bit for each, and the end.
fn walk(places: &Places, start: u8, marks: u32) -> (u32, u8) {
    let mut passed = 0;
    let mut place = start;
    while place >= CELL && (marks | passed) >> place & 1 == 0 {
        passed |= 1 << place;
        place = places.link_of(place);
    }
    (passed, place)
}

#[cfg(test)]
mod tests {
    use super::*;
    use crate::reference::facts::Fact;
    use crate::reference::shape as reference;

    /// x leads to cell 0, and 1 leads there; 2 leads to 3, which ends at #; 4 is by itself; 5 is a ring
    /// that 6 leads to; 7 leads to *.
    #[test]
    fn lost_cells_go() {
        let links = [1, 3, 6, 1, 0, 8, 8, 2];
        let facts = vec![Fact::below(0, 2), Fact::below(2, 3), Fact::below(1, 7)];
        let whole = reference::Shape::of_codes(&[3, 1], &links).with_facts(facts);
        let whole = Shape::of_reference(&whole);
        let left = reference::Shape::of_codes(&[3, 1], &[1, 3, 5, 5, 2]);
        let facts = vec![Fact::has_value(0), Fact::below(1, 4)];
        let left = Shape::of_reference(&left.with_facts(facts));
        assert_eq!(without_lost(&whole, 3), left);
        assert_eq!(without_lost(&whole, 2), whole);
    }
}
