//! Where a heap of many cells has the cells of a shape that it satisfies.

use super::flat_heap::FlatHeap;
use crate::baseline::shape::CELL;
use crate::reference::facts::Relation;
use crate::reference::heap::Place;
use crate::reference::shape::Shape;

/// A cell of the heap for each of the shape, by which the heap satisfies it, if it does.
pub fn images(shape: &Shape, heap: &FlatHeap) -> Option<Vec<usize>> {
    if shape.cells() > heap.cells() || is_elsewhere(shape, heap) {
        return None;
    }
    let mut finder = Finder {
        shape,
        heap,
        images: vec![None; shape.cells()],
        cells_of_heap: vec![None; heap.cells()],
    };
    finder.place_variables()?;
    let is_told = |cell: &usize| {
        let links = shape.links[*cell].is_some() || shape.links.contains(&Some(Place::Cell(*cell)));
        links
            || shape
                .facts
                .iter()
                .any(|fact| fact.i == *cell || fact.j == *cell)
    };
    let is_open = |cell: &usize| finder.images[*cell].is_none();
    let open = (0..shape.cells()).filter(is_open);
    // Of the others nothing is said but that they are there.
    let (told, others): (Vec<usize>, Vec<usize>) = open.partition(is_told);
    finder.extend(&[told, others].concat())?;
    finder.images.into_iter().collect()
}

/// Whether a variable isn't where the shape has it, as far as can be seen at once.
fn is_elsewhere(shape: &Shape, heap: &FlatHeap) -> bool {
    let mut variables = shape.variables.iter().enumerate();
    variables.any(|(number, place)| match place {
        None => false,
        Some(Place::Cell(_)) => heap.place(number + 1) < CELL,
        Some(place) => place.code() != u64::from(heap.place(number + 1)),
    })
}

/// Tries images for the cells that no variable stands at.
struct Finder<'a> {
    shape: &'a Shape,
    heap: &'a FlatHeap,
    images: Vec<Option<usize>>,
    /// For each cell of the heap, the one that it is the image of.
    cells_of_heap: Vec<Option<usize>>,
}

impl Finder<'_> {
    /// Gives the cells that variables stand at their images; nothing where two can't be.
    fn place_variables(&mut self) -> Option<()> {
        for (number, &place) in self.shape.variables.iter().enumerate() {
            if let Some(Place::Cell(cell)) = place {
                let image = usize::from(self.heap.place(number + 1) - CELL);
                let agrees = self.images[cell].map_or(self.is_free(image), |one| one == image);
                if !agrees {
                    return None;
                }
                self.set(cell, Some(image));
            }
        }
        Some(())
    }

    fn is_free(&self, image: usize) -> bool {
        self.cells_of_heap[image].is_none()
    }

    fn set(&mut self, cell: usize, image: Option<usize>) {
        if let Some(before) = self.images[cell] {
            self.cells_of_heap[before] = None;
        }
        self.images[cell] = image;
        if let Some(image) = image {
            self.cells_of_heap[image] = Some(cell);
        }
    }

    /// Extends the images to the open cells. More images mend nothing, so what fails early is left.
    fn extend(&mut self, open: &[usize]) -> Option<()> {
        if !(self.facts_hold() && self.paths_hold()) {
            return None;
        }
        let Some((&cell, open)) = open.split_first() else {
            return Some(());
        };
        for image in 0..self.heap.cells() {
            if self.is_free(image) {
                self.set(cell, Some(image));
                if self.extend(open).is_some() {
                    return Some(());
                }
                self.set(cell, None);
            }
        }
        None
    }

    /// Whether the facts hold whose cells have images.
    fn facts_hold(&self) -> bool {
        self.shape.facts.iter().all(|fact| {
            let (Some(i), Some(j)) = (self.images[fact.i], self.images[fact.j]) else {
                return true;
            };
            let (i, j) = (self.heap.rank(i), self.heap.rank(j));
            let compares = match fact.relation {
                Relation::Below => i < j,
                Relation::Equal => i == j,
            };
            i > 0 && j > 0 && compares
        })
    }

    /// Whether the paths of the links whose ends have images lead there, and none meets another.
    fn paths_hold(&self) -> bool {
        let mut passed = 0u64;
        (0..self.shape.cells()).all(|cell| self.path_holds(cell, &mut passed))
    }

    /// The same for the link of a cell; the cells between are a bit each.
    fn path_holds(&self, cell: usize, passed: &mut u64) -> bool {
        let (Some(source), Some(link)) = (self.images[cell], self.shape.links[cell]) else {
            return true;
        };
        let target = match link {
            Place::Cell(cell) => match self.images[cell] {
                Some(image) => CELL + image as u8,
                None => return true,
            },
            place => place.code() as u8,
        };
        let mut place = self.heap.link(source);
        while place >= CELL && self.is_free(usize::from(place - CELL)) {
            let bit = 1 << (place - CELL);
            if *passed & bit != 0 {
                return false;
            }
            *passed |= bit;
            place = self.heap.link(usize::from(place - CELL));
        }
        place == target
    }
}

#[cfg(test)]
mod tests {
    use super::*;
    use crate::baseline::values::facts::tests::random_facts;
    use crate::random::Random;
    use crate::reference::embedding::{embeds, embeds_somehow};
    use crate::reference::heap::Heap;

    fn random_shape(random: &mut Random, cells: usize) -> Shape {
        let mut codes =
            |count| -> Vec<u64> { (0..count).map(|_| random.below(3 + cells) as u64).collect() };
        let shape = Shape::of_codes(&codes(2), &codes(cells));
        match cells == 0 || random.once_in(2) {
            true => shape,
            false => shape.with_facts(random_facts(random, cells, 3)),
        }
    }

    fn random_heap(random: &mut Random, cells: usize) -> Heap {
        let place = |random: &mut Random| {
            let code = 1 + random.below(2 + cells) as u64;
            Place::of_code(code).expect("the code isn't nowhere")
        };
        let valued = |random: &mut Random| !random.once_in(4);
        Heap {
            variables: (0..2).map(|_| place(random)).collect(),
            links: (0..cells).map(|cell| (cell, place(random))).collect(),
            values: (0..cells)
                .filter(|_| valued(random))
                .map(|cell| (cell, cell * 7 % 4))
                .collect(),
        }
    }

    #[test]
    fn finds_images_exactly_where_there_are_some() {
        let mut random = Random::new(0x3c_5eed);
        let mut found = 0;
        for _ in 0..60_000 {
            let (cells, more) = (random.below(4), random.below(4));
            let shape = random_shape(&mut random, cells);
            let heap = random_heap(&mut random, cells + more);
            let images = images(&shape, &FlatHeap::of_heap(&heap));
            let whole = Shape::of_heap(&heap);
            assert_eq!(
                images.is_some(),
                embeds_somehow(&shape, &whole),
                "{shape:?} {heap:?}"
            );
            if let Some(images) = images {
                assert!(embeds(&shape, &whole, &images), "{shape:?} {heap:?}");
                found += 1;
            }
        }
        assert!(found > 1_000, "{found}");
    }
}
