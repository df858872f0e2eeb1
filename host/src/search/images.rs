//! Finding images that make one shape embed in another.

use super::shape::Shape;
use crate::baseline::embedding::{follow, Images, ENDS, NO_IMAGES};
use crate::baseline::shape::{Shape as Places, CELL, HELPER, NOWHERE};
use crate::baseline::values::facts::Facts;
use crate::reference::facts::Fact;

/// Where single variables and pairs of them stand, a bit for each that is told. A shape that embeds in
/// another tells nothing that the other doesn't, so most pairs of shapes are told apart by this alone.
pub type Features = u128;

pub fn features(shape: &Places) -> Features {
    let places = &shape.variables[1..HELPER];
    let mut told: Features = 0;
    let mut bit = 1;
    for (second, &there) in places.iter().enumerate() {
        for standing in [there == 1, there == 2, there >= CELL] {
            told |= if standing { bit } else { 0 };
            bit <<= 1;
        }
        for &here in &places[..second] {
            let both_at_cells = here >= CELL && there >= CELL;
            for standing in [
                both_at_cells && here == there,
                both_at_cells && here != there,
            ] {
                told |= if standing { bit } else { 0 };
                bit <<= 1;
            }
        }
    }
    told
}

/// Images that make `small` embed in `large`, if there are any.
pub fn find_images(small: &Shape, large: &Shape) -> Option<Images> {
    if small.facts == Facts::NONE {
        return find_images_where(&small.places, 0, &large.places, |_| true);
    }
    let named = small.facts.named();
    find_images_where(&small.places, named, &large.places, |images| {
        small.facts.all().all(|fact| match image_of(images, fact) {
            Some(image) => large.facts.holds(image),
            None => true,
        })
    })
}

/// A fact about the images of its cells, if both have one.
pub fn image_of(images: &Images, fact: Fact) -> Option<Fact> {
    let image = |cell: usize| images[usize::from(CELL) + cell];
    let has_images = image(fact.i) != NOWHERE && image(fact.j) != NOWHERE;
    has_images.then(|| fact.renamed(|cell| (image(cell) - CELL).into()))
}

/// Images that make the places of a shape embed in those of another and for which a test holds, as it
/// must for any part of them. The test looks at the images of some cells, a bit for each.
pub fn find_images_where(
    small: &Places,
    tested: u16,
    large: &Places,
    mut test: impl FnMut(&Images) -> bool,
) -> Option<Images> {
    if small.cells > large.cells {
        return None;
    }
    let images = images_of_variables(small, large)?;
    let targets = small
        .links
        .iter()
        .fold(0u32, |mask, &link| mask | 1 << link);
    let mut finder = Finder {
        small,
        large,
        test: &mut test,
        bound: Vec::new(),
        loose: Vec::new(),
    };
    for code in CELL..small.fresh() {
        if images[usize::from(code)] == NOWHERE {
            let is_bound = small.link_of(code) != NOWHERE
                || targets >> code & 1 == 1
                || tested >> (code - CELL) & 1 == 1;
            let open = if is_bound {
                &mut finder.bound
            } else {
                &mut finder.loose
            };
            open.push(code);
        }
    }
    let marks = images[usize::from(CELL)..]
        .iter()
        .fold(ENDS, |mask, &image| mask | 1 << image);
    finder.extend(images, marks, 0)
}

/// The images of the cells that variables stand at, nothing where they can't be.
fn images_of_variables(small: &Places, large: &Places) -> Option<Images> {
    let mut images = NO_IMAGES;
    let mut marks = 0u32;
    for (&here, &there) in small.variables.iter().zip(&large.variables) {
        let image = &mut images[usize::from(here)];
        match here {
            NOWHERE => {}
            _ if there == NOWHERE => return None,
            CELL.. if *image == NOWHERE && there >= CELL && marks >> there & 1 == 0 => {
                *image = there;
                marks |= 1 << there;
            }
            _ if *image != there => return None,
            _ => {}
        }
    }
    Some(images)
}

/// Tries images for the cells that no variable stands at.
struct Finder<'a> {
    small: &'a Places,
    large: &'a Places,
    test: &'a mut dyn FnMut(&Images) -> bool,
    /// Of these cells, those that a link or the test is about, and the others.
    bound: Vec<u8>,
    loose: Vec<u8>,
}

impl Finder<'_> {
    /// Extends the images to the bound cells from the next one on, then to the loose ones. More
    /// images mend no path, so what fails early is left.
    fn extend(&mut self, images: Images, marks: u32, next: usize) -> Option<Images> {
        let passed = follow(self.small, self.large, &images, marks)?.passed;
        if !(self.test)(&images) {
            return None;
        }
        let Some(&code) = self.bound.get(next) else {
            return self.with_loose(images, marks | passed);
        };
        let free = (CELL..self.large.fresh()).filter(|&image| marks >> image & 1 == 0);
        free.into_iter().find_map(|image| {
            let mut images = images;
            images[usize::from(code)] = image;
            self.extend(images, marks | 1 << image, next + 1)
        })
    }

    /// Loose cells go anywhere that is neither an image nor on a path.
    fn with_loose(&self, mut images: Images, taken: u32) -> Option<Images> {
        let mut free = (CELL..self.large.fresh()).filter(|&image| taken >> image & 1 == 0);
        for &code in &self.loose {
            images[usize::from(code)] = free.next()?;
        }
        Some(images)
    }
}

#[cfg(test)]
mod tests {
    use super::*;
    use crate::baseline::values::facts::tests::random_facts;
    use crate::random::Random;
    use crate::reference::embedding::{embeds, embeds_somehow};
    use crate::reference::shape as reference;

    fn random_shape(random: &mut Random, cells: usize) -> reference::Shape {
        let mut codes =
            |count| -> Vec<u64> { (0..count).map(|_| random.below(3 + cells) as u64).collect() };
        let shape = reference::Shape::of_codes(&codes(2), &codes(cells));
        match cells == 0 || random.once_in(2) {
            true => shape,
            false => shape.with_facts(random_facts(random, cells, 3)),
        }
    }

    #[test]
    fn finds_images_exactly_where_there_are_some() {
        let mut random = Random::new(0x8_5eed);
        let (mut found, mut with_facts) = (0, 0);
        for _ in 0..60_000 {
            let (cells, more) = (random.below(4), random.below(3));
            let small = random_shape(&mut random, cells);
            let large = random_shape(&mut random, cells + more);
            let compact = (Shape::of_reference(&small), Shape::of_reference(&large));
            let images = find_images(&compact.0, &compact.1);
            let expected = embeds_somehow(&small, &large);
            assert_eq!(images.is_some(), expected, "{small:?} {large:?}");
            if let Some(images) = images {
                let cells = &images[usize::from(CELL)..][..small.cells()];
                let cells: Vec<usize> = cells.iter().map(|&code| (code - CELL).into()).collect();
                assert!(embeds(&small, &large, &cells));
                assert_eq!(
                    features(&compact.0.places) & !features(&compact.1.places),
                    0
                );
                found += 1;
                with_facts += usize::from(!small.facts.is_empty());
            }
        }
        assert!(found > 1_000 && with_facts > 100, "{found}, {with_facts}");
    }
}
