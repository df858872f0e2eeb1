//! Making a shape more general, step by step.

use super::facts::simpler;
use super::shape::Shape;
use super::smaller::{without_link, without_loose, without_middle, without_variable};
use crate::baseline::shape::{CELL, HELPER};

/// Which of the shapes one step simpler are tried first. There is often more than one shape as general as
/// can be, and the order decides which is found.
#[derive(Clone, Copy, Debug, PartialEq, Eq)]
pub enum Order {
    /// Facts are forgotten before variables, and these before links.
    FactsFirst,
    /// Links are forgotten before variables, and these before facts.
    LinksFirst,
    /// As the first, but what has the highest number is forgotten first.
    HighestFirst,
}

impl Order {
    pub const ALL: [Order; 3] = [Order::FactsFirst, Order::LinksFirst, Order::HighestFirst];
}

/// Takes simplifications as long as the shape stays allowed. What is left is as general as single
/// steps can make it.
pub fn generalise(shape: Shape, order: Order, mut allowed: impl FnMut(&Shape) -> bool) -> Shape {
    let mut shape = shape;
    while let Some(simpler) = in_order(&shape, order).into_iter().find(&mut allowed) {
        shape = simpler;
    }
    shape
}

/// The shapes one step simpler: a cell without any mark gone, a fact, a variable or a link forgotten, or
/// a cell in the middle of a path gone.
pub fn simplifications(shape: &Shape) -> Vec<Shape> {
    in_order(shape, Order::FactsFirst)
}

fn in_order(shape: &Shape, order: Order) -> Vec<Shape> {
    let cells = || CELL..shape.places.fresh();
    let loose = cells().filter_map(|cell| without_loose(shape, cell));
    let told_less = simpler(&shape.facts).into_iter();
    let facts = told_less.map(|facts| Shape { facts, ..*shape });
    let variables = (1..HELPER).filter_map(|variable| without_variable(shape, variable));
    let links = cells().filter_map(|cell| without_link(shape, cell));
    let contracted = cells().filter_map(|cell| without_middle(shape, cell));
    let mut groups: [Vec<Shape>; 5] = [
        loose.collect(),
        facts.collect(),
        variables.collect(),
        links.collect(),
        contracted.collect(),
    ];
    match order {
        Order::FactsFirst => {}
        Order::LinksFirst => groups.swap(1, 3),
        Order::HighestFirst => groups.iter_mut().for_each(|group| group.reverse()),
    }
    groups.concat()
}

#[cfg(test)]
mod tests {
    use super::*;
    use crate::reference::shape as reference;
    use crate::search::images::find_images;

    fn shape(variables: &[u64], links: &[u64]) -> Shape {
        Shape::of_reference(&reference::Shape::of_codes(variables, links))
    }

    #[test]
    fn simplifications_embed() {
        let whole = shape(&[3, 6, 1], &[4, 5, 6, 5, 0]);
        let simpler = simplifications(&whole);
        // Cell 4 loose; three variables; four links; cell 1 in the middle.
        assert_eq!(simpler.len(), 1 + 3 + 4 + 1);
        for shape in simpler {
            assert!(find_images(&shape, &whole).is_some(), "{shape:?}");
            assert!(find_images(&whole, &shape).is_none(), "{shape:?}");
        }
    }

    /// The orders have the same shapes, each at another place.
    #[test]
    fn orders_differ() {
        let whole = shape(&[3, 6, 1], &[4, 5, 6, 5, 0]);
        let [first, links, highest] = Order::ALL.map(|order| in_order(&whole, order));
        let whole_first = links.iter().position(|shape| *shape == first[1]);
        assert_eq!(whole_first, Some(5));
        assert_eq!(highest[1], first[3]);
        for other in [links, highest] {
            assert!(other.len() == first.len() && first.iter().all(|one| other.contains(one)));
        }
    }

    #[test]
    fn what_is_allowed_bounds_the_result() {
        let ring = shape(&[0, 0], &[3]);
        let whole = shape(&[3, 1], &[4, 5, 4]);
        for order in Order::ALL {
            let general = generalise(whole, order, |shape| find_images(&ring, shape).is_some());
            assert_eq!(general, ring);
        }
    }
}
