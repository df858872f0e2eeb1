//! When a shape embeds in another by given images of its cells, and what keeps it from that.

use super::facts::{closed, Fact};
use super::heap::Place;
use super::shape::Shape;
use crate::verdict::{Broken, Rule};

/// Whether the images, one for each cell of `shape`, make it embed in `other`.
pub fn embeds(shape: &Shape, other: &Shape, images: &[usize]) -> bool {
    let map = Map {
        shape,
        other,
        images,
    };
    map.broken().is_none()
}

/// Whether some images make `shape` embed in `other`.
pub fn embeds_somehow(shape: &Shape, other: &Shape) -> bool {
    extends(shape, other, &mut Vec::new())
}

fn extends(shape: &Shape, other: &Shape, images: &mut Vec<usize>) -> bool {
    if images.len() == shape.cells() {
        return embeds(shape, other, images);
    }
    (0..other.cells()).any(|image| {
        images.push(image);
        let found = extends(shape, other, images);
        images.pop();
        found
    })
}

/// A shape, another one, and an image in it for each of the shape's cells.
pub struct Map<'a> {
    pub shape: &'a Shape,
    pub other: &'a Shape,
    pub images: &'a [usize],
}

/// What is met by following links from an image.
pub struct Path {
    /// The cells ahead of the end.
    pub between: Vec<usize>,
    /// The first image, # or *; nothing where a link stands nowhere or leads round for ever.
    pub end: Option<Place>,
}

impl Map<'_> {
    /// The first rule that is broken, at the lowest cell or variable.
    pub fn broken(&self) -> Option<Broken> {
        Rule::ALL.into_iter().find_map(|rule| {
            let name = self.lowest(rule)? as u8;
            Some(Broken { rule, name })
        })
    }

    /// The lowest cell or variable at which a rule is broken, whatever the others say. The rule of
    /// states isn't one of maps.
    pub fn lowest(&self, rule: Rule) -> Option<usize> {
        let mut cells = 0..self.shape.cells();
        let mut variables = 1..=self.shape.variables.len();
        match rule {
            Rule::State => None,
            Rule::Image => cells.find(|&cell| self.twin(cell).is_some()),
            Rule::Variable => variables.find(|&variable| self.is_elsewhere(variable)),
            Rule::Link => cells.find(|&cell| self.misses(cell)),
            Rule::Path => cells.find(|&cell| self.shared(cell).is_some()),
            Rule::Fact => self.missing().map(|fact| fact.i),
        }
    }

    /// Another cell with the same image, the lowest.
    pub fn twin(&self, cell: usize) -> Option<usize> {
        let is_twin = |&other: &usize| other != cell && self.images[other] == self.images[cell];
        (0..self.shape.cells()).find(is_twin)
    }

    fn is_elsewhere(&self, variable: usize) -> bool {
        match self.shape.place(variable) {
            Some(place) => self.other.place(variable) != Some(self.image(place)),
            None => false,
        }
    }

    fn misses(&self, cell: usize) -> bool {
        match self.shape.links[cell] {
            Some(place) => self.path(cell).end != Some(self.image(place)),
            None => false,
        }
    }

    /// Cells go to their images, # to # and * to *.
    pub fn image(&self, place: Place) -> Place {
        match place {
            Place::Cell(cell) => Place::Cell(self.images[cell]),
            other => other,
        }
    }

    /// Follows links from the image of a cell, at least one step.
    pub fn path(&self, cell: usize) -> Path {
        let mut between = Vec::new();
        let mut met = self.other.links[self.images[cell]];
        while let Some(Place::Cell(next)) = met {
            if self.images.contains(&next) {
                break;
            }
            if between.contains(&next) {
                met = None;
                break;
            }
            between.push(next);
            met = self.other.links[next];
        }
        Path { between, end: met }
    }

    /// The sum of the lengths of the paths: each has a link more than cells between.
    pub fn links(&self) -> usize {
        let linked = (0..self.shape.cells()).filter(|&cell| self.shape.links[cell].is_some());
        linked.map(|cell| self.path(cell).between.len() + 1).sum()
    }

    /// The lowest of the cells below a cell with whose path its own shares a cell, and the first such
    /// cell.
    pub fn shared(&self, cell: usize) -> Option<(usize, usize)> {
        let between = self.between(cell);
        (0..cell).find_map(|lower| {
            let other = self.between(lower);
            let shared = between.iter().find(|passed| other.contains(passed));
            shared.map(|&passed| (lower, passed))
        })
    }

    /// Of the facts listed that aren't among the closed facts of the other shape, the first with the
    /// lowest i.
    pub fn missing(&self) -> Option<Fact> {
        let told = closed(&self.other.facts);
        let is_missing = |fact: &&Fact| {
            let image = fact.renamed(|cell| self.images[cell]);
            !told.contains(&image)
        };
        let missing = self.shape.facts.iter().filter(is_missing);
        missing.min_by_key(|fact| fact.i).copied()
    }

    /// The cells strictly between on the path of a cell's link; none without a link.
    fn between(&self, cell: usize) -> Vec<usize> {
        match self.shape.links[cell] {
            Some(_) => self.path(cell).between,
            None => Vec::new(),
        }
    }
}

#[cfg(test)]
mod tests {
    use super::*;

    /// Four cells: 0 and 1 link to 2, 2 links to 3.
    fn meeting() -> Shape {
        Shape::of_codes(&[0], &[5, 5, 6, 0])
    }

    /// The number of the first rule that is broken, and its name.
    fn broken(shape: &Shape, other: &Shape, images: &[usize]) -> Option<(u8, u8)> {
        let map = Map {
            shape,
            other,
            images,
        };
        map.broken().map(|broken| (broken.rule as u8, broken.name))
    }

    #[test]
    fn paths_may_not_share_a_cell() {
        let two_links = Shape::of_codes(&[0], &[5, 5, 0]);
        assert_eq!(broken(&two_links, &meeting(), &[0, 1, 3]), Some((5, 1)));
        assert!(embeds(&two_links, &meeting(), &[0, 1, 2]));
    }

    #[test]
    fn of_two_that_share_a_path_the_higher_is_named_and_the_lowest_such() {
        // Cells 1, 2 and 4 go through cell 5; 0 and 3 go through cell 6.
        let other = Shape::of_codes(&[0], &[9, 8, 8, 9, 8, 1, 2]);
        let shape = Shape::of_codes(&[0], &[2, 1, 1, 2, 1]);
        assert_eq!(broken(&shape, &other, &[0, 1, 2, 3, 4]), Some((5, 2)));
        assert_eq!(broken(&shape, &other, &[0, 1, 5, 3, 4]), Some((4, 1)));
        assert_eq!(broken(&shape, &other, &[3, 1, 5, 0, 6]), Some((4, 0)));
        let apart = Shape::of_codes(&[0], &[2, 1, 0, 2, 0]);
        assert_eq!(broken(&apart, &other, &[0, 1, 2, 3, 4]), Some((5, 3)));
    }

    #[test]
    fn a_path_counts_as_one_link() {
        let one_link = Shape::of_codes(&[0], &[4, 0]);
        assert!(embeds(&one_link, &meeting(), &[0, 3]));
        assert!(embeds(&one_link, &meeting(), &[2, 3]));
        assert_eq!(broken(&one_link, &meeting(), &[3, 0]), Some((4, 0)));
    }

    #[test]
    fn links_are_the_lengths_of_all_paths() {
        let links = |shape: &Shape, images: &[usize]| {
            let map = Map {
                shape,
                other: &meeting(),
                images,
            };
            assert_eq!(map.broken(), None);
            map.links()
        };
        let one_link = Shape::of_codes(&[0], &[4, 0]);
        assert_eq!(links(&one_link, &[0, 3]), 2);
        assert_eq!(links(&one_link, &[2, 3]), 1);
        assert_eq!(links(&meeting(), &[0, 1, 2, 3]), 3);
        assert_eq!(links(&Shape::of_codes(&[0], &[0, 0]), &[0, 3]), 0);
    }

    #[test]
    fn images_differ_and_variables_stand_at_them() {
        let two_cells = Shape::of_codes(&[0], &[0, 0]);
        assert!(embeds(&two_cells, &meeting(), &[3, 1]));
        assert_eq!(broken(&two_cells, &meeting(), &[3, 3]), Some((2, 0)));

        let named = Shape::of_codes(&[3], &[0]);
        let other = Shape::of_codes(&[4], &[0, 0]);
        assert!(embeds(&named, &other, &[1]));
        assert_eq!(broken(&named, &other, &[0]), Some((3, 1)));
        let nowhere = Shape::of_codes(&[0], &[0]);
        assert_eq!(broken(&named, &nowhere, &[0]), Some((3, 1)));
        assert!(embeds(&Shape::of_codes(&[0], &[]), &other, &[]));
    }

    #[test]
    fn the_lowest_cell_with_an_image_of_another_is_named() {
        let cells = |count| Shape::of_codes(&[0], &vec![0; count]);
        assert_eq!(broken(&cells(4), &cells(8), &[5, 7, 7, 5]), Some((2, 0)));
        assert_eq!(broken(&cells(4), &cells(8), &[1, 7, 7, 5]), Some((2, 1)));
        assert_eq!(broken(&cells(4), &cells(8), &[1, 2, 7, 7]), Some((2, 2)));
    }

    #[test]
    fn the_lowest_variable_elsewhere_is_named() {
        let here = Shape::of_codes(&[0, 1, 2, 3], &[0]);
        let elsewhere = |codes: &[u64; 4]| broken(&here, &Shape::of_codes(codes, &[0]), &[0]);
        assert_eq!(elsewhere(&[2, 1, 2, 3]), None);
        assert_eq!(elsewhere(&[2, 1, 2, 0]), Some((3, 4)));
        assert_eq!(elsewhere(&[2, 1, 1, 0]), Some((3, 3)));
        assert_eq!(elsewhere(&[2, 0, 1, 0]), Some((3, 2)));
    }

    /// Cells 0 and 1 meet at 4, the link of 2 misses and variable 2 stands elsewhere; then 1 and 3
    /// have one image too.
    #[test]
    fn the_first_rule_counts_over_all_cells() {
        let other = Shape::of_codes(&[0, 2], &[7, 7, 1, 0, 1]);
        let links = [1, 1, 2, 0];
        let at = |variables: &[u64], images: &[usize]| {
            broken(&Shape::of_codes(variables, &links), &other, images)
        };
        assert_eq!(at(&[0, 1], &[0, 1, 2, 1]), Some((2, 1)));
        assert_eq!(at(&[0, 1], &[0, 1, 2, 3]), Some((3, 2)));
        assert_eq!(at(&[0, 2], &[0, 1, 2, 3]), Some((4, 2)));
        assert_eq!(at(&[0, 2], &[0, 1, 4, 3]), Some((4, 0)));
        let holds_but_for_a_path = Shape::of_codes(&[0, 2], &[1, 1, 1, 0]);
        assert_eq!(
            broken(&holds_but_for_a_path, &other, &[0, 1, 2, 3]),
            Some((5, 1))
        );
    }

    /// Cells 2 and 0 are below 1, which equals 3.
    #[test]
    fn facts_are_among_the_closed_ones() {
        let listed = vec![Fact::below(0, 1), Fact::below(2, 1), Fact::equal(1, 3)];
        let other = Shape::of_codes(&[0], &[0; 4]).with_facts(listed);
        let told = |facts: &[Fact], images: &[usize]| {
            let shape = Shape::of_codes(&[0], &vec![0; images.len()]);
            broken(&shape.with_facts(facts.to_vec()), &other, images)
        };
        assert_eq!(told(&[Fact::below(0, 1)], &[2, 3]), None);
        assert_eq!(told(&[Fact::below(0, 1)], &[3, 2]), Some((6, 0)));
        assert_eq!(told(&[Fact::has_value(1)], &[3, 2]), None);
        assert_eq!(told(&[Fact::equal(0, 1)], &[0, 2]), Some((6, 0)));
        assert_eq!(told(&[Fact::below(1, 0)], &[0, 1]), Some((6, 1)));
    }

    /// A fact of equality is listed later than any of order, but names the lower cell.
    #[test]
    fn the_lowest_cell_of_a_missing_fact_is_named() {
        let facts = [Fact::below(2, 0), Fact::equal(0, 0), Fact::equal(1, 2)];
        let other = Shape::of_codes(&[0], &[0; 3]).with_facts(vec![Fact::has_value(0)]);
        let shape = |facts: &[Fact]| Shape::of_codes(&[0], &[0; 3]).with_facts(facts.to_vec());
        assert_eq!(broken(&shape(&facts), &other, &[0, 1, 2]), Some((6, 1)));
        assert_eq!(broken(&shape(&facts), &other, &[1, 0, 2]), Some((6, 0)));
        assert_eq!(
            broken(&shape(&facts[..2]), &other, &[0, 1, 2]),
            Some((6, 2))
        );
        assert_eq!(broken(&shape(&facts), &other, &[0, 1, 1]), Some((2, 1)));
        let linked = Shape::of_codes(&[0], &[0, 0, 1]).with_facts(facts.to_vec());
        assert_eq!(broken(&linked, &other, &[0, 1, 2]), Some((4, 2)));
    }

    #[test]
    fn a_path_stops_at_the_first_image_and_at_the_ends() {
        let chain = Shape::of_codes(&[0], &[4, 5, 1]);
        let to_null = Shape::of_codes(&[0], &[1]);
        assert!(embeds(&to_null, &chain, &[0]));
        let to_dangling = Shape::of_codes(&[0], &[2]);
        assert_eq!(broken(&to_dangling, &chain, &[0]), Some((4, 0)));
        let jumps = Shape::of_codes(&[0], &[5, 0, 0]);
        assert_eq!(broken(&jumps, &chain, &[0, 1, 2]), Some((4, 0)));
        assert!(embeds(&jumps, &chain, &[0, 2, 1]));
    }

    #[test]
    fn a_ring_is_a_path_to_itself() {
        let ring = Shape::of_codes(&[0], &[3]);
        let three = Shape::of_codes(&[0], &[4, 5, 3]);
        assert!(embeds(&ring, &three, &[1]));
        let entered = Shape::of_codes(&[0], &[4, 4]);
        assert_eq!(broken(&ring, &entered, &[0]), Some((4, 0)));
        assert!(embeds(
            &entered,
            &Shape::of_codes(&[0], &[4, 5, 4]),
            &[0, 1]
        ));
    }
}
