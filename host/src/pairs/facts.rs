//! Facts for shapes of version 2, and images by the reference's embedding.

use crate::random::Random;
use crate::reference::embedding::{embeds, Map};
use crate::reference::facts::{closed, Fact, Relation};
use crate::reference::heap::Place;
use crate::reference::shape::Shape;

/// How many images are tried before a search is given up.
const TRIES: usize = 2_000;

/// All facts on so many cells, in their order.
pub fn all_facts(cells: usize) -> Vec<Fact> {
    let mut facts = Vec::new();
    for relation in Relation::ALL {
        for i in 0..cells {
            facts.extend((0..cells).map(|j| Fact { relation, i, j }));
        }
    }
    facts
}

/// One of them; there are cells.
pub fn random_fact(random: &mut Random, cells: usize) -> Fact {
    Fact {
        relation: random.pick(&Relation::ALL),
        i: random.below(cells),
        j: random.below(cells),
    }
}

/// Mostly few facts and mostly such as some values meet; now and then any, or very many.
pub fn random_facts(random: &mut Random, cells: usize) -> Vec<Fact> {
    if cells == 0 || random.once_in(6) {
        return Vec::new();
    }
    if random.once_in(6) {
        let count = 1 + random.below(3);
        return in_order((0..count).map(|_| random_fact(random, cells)).collect());
    }
    let different = random.pick(&[1, 1, 2, 4, 8]);
    let values: Vec<usize> = (0..cells).map(|_| random.below(different)).collect();
    let is_met = |fact: &Fact| match fact.relation {
        Relation::Below => values[fact.i] < values[fact.j],
        Relation::Equal => values[fact.i] == values[fact.j],
    };
    let mut facts = all_facts(cells);
    facts.retain(is_met);
    let kept = random.pick(&[1, 2, 2, 4, 4, facts.len()]);
    while facts.len() > kept {
        facts.remove(random.below(facts.len()));
    }
    facts
}

/// Facts strictly rising.
pub fn in_order(mut facts: Vec<Fact>) -> Vec<Fact> {
    facts.sort();
    facts.dedup();
    facts
}

/// A shape without one of its cells and all that stands at it or is told of it.
pub fn without_cell(shape: &Shape, cell: usize) -> Shape {
    let mut shape = shape.clone();
    shape.links.remove(cell);
    shape.facts.retain(|fact| !fact.names(cell));
    let moved_down = |number: usize| number - usize::from(number > cell);
    for fact in &mut shape.facts {
        *fact = fact.renamed(moved_down);
    }
    for place in shape.variables.iter_mut().chain(&mut shape.links) {
        *place = match *place {
            Some(Place::Cell(number)) if number == cell => None,
            Some(Place::Cell(number)) => Some(Place::Cell(moved_down(number))),
            other => other,
        };
    }
    shape
}

/// Images by which a shape embeds in another, if some are found.
pub fn find_images(shape: &Shape, other: &Shape) -> Option<Vec<usize>> {
    let mut search = Search {
        shape,
        other,
        told: closed(&other.facts),
        left: TRIES,
    };
    search.extend(&mut Vec::new())
}

struct Search<'a> {
    shape: &'a Shape,
    other: &'a Shape,
    /// The closed facts of the other shape.
    told: Vec<Fact>,
    left: usize,
}

impl Search<'_> {
    fn extend(&mut self, images: &mut Vec<usize>) -> Option<Vec<usize>> {
        if images.len() == self.shape.cells() {
            let holds = embeds(self.shape, self.other, images);
            return holds.then(|| images.clone());
        }
        for image in 0..self.other.cells() {
            self.left = self.left.checked_sub(1)?;
            if images.contains(&image) {
                continue;
            }
            images.push(image);
            let found = match self.may_be(images) {
                true => self.extend(images),
                false => None,
            };
            if found.is_some() {
                return found;
            }
            images.pop();
        }
        None
    }

    /// Whether the variables at the last cell with an image stand there, and what is told of it and
    /// those before it is told of the images.
    fn may_be(&self, images: &[usize]) -> bool {
        let last = images.len() - 1;
        let map = Map {
            shape: self.shape,
            other: self.other,
            images,
        };
        let mut variables = 1..=self.shape.variables.len();
        let at_last = Some(Place::Cell(last));
        let variables_agree = variables.all(|variable| {
            self.shape.place(variable) != at_last
                || self.other.place(variable) == Some(map.image(Place::Cell(last)))
        });
        let among = |fact: &&Fact| fact.names(last) && fact.i <= last && fact.j <= last;
        let mut facts = self.shape.facts.iter().filter(among);
        variables_agree
            && facts.all(|fact| {
                let image = fact.renamed(|cell| images[cell]);
                self.told.binary_search(&image).is_ok()
            })
    }
}

#[cfg(test)]
mod tests {
    use super::*;
    use crate::pairs::codes::Codes;
    use crate::reference::embedding::embeds_somehow;

    /// With so few cells no search is given up.
    #[test]
    fn images_are_found_exactly_where_there_are_some() {
        let mut random = Random::new(0x23_5eed);
        let mut found = [0; 2];
        for _ in 0..20_000 {
            let (cells, more) = (random.below(4), random.below(3));
            let mut shape = |cells: usize| {
                let mut codes = Codes::random(&mut random, 2, cells);
                codes.facts = random_facts(&mut random, cells);
                codes.located(0).shape
            };
            let (small, large) = (shape(cells), shape(cells + more));
            let images = find_images(&small, &large);
            assert_eq!(images.is_some(), embeds_somehow(&small, &large));
            if let Some(images) = images {
                assert!(embeds(&small, &large, &images));
                found[usize::from(!small.facts.is_empty())] += 1;
            }
        }
        assert!(found[0] > 500 && found[1] > 100, "{found:?}");
    }

    #[test]
    fn parts_embed() {
        let mut random = Random::new(0x24_5eed);
        for _ in 0..1_000 {
            let cells = 1 + random.below(6);
            let mut codes = Codes::random(&mut random, 2, cells);
            codes.facts = random_facts(&mut random, cells);
            let whole = codes.located(0).shape;
            let gone = random.below(cells);
            let images: Vec<usize> = (0..cells).filter(|&cell| cell != gone).collect();
            let part = without_cell(&whole, gone);
            let map = Map {
                shape: &part,
                other: &whole,
                images: &images,
            };
            assert_eq!(map.broken(), None, "{whole:?} without {gone}");
        }
    }
}
