//! Heaps in which those that satisfy a shape are found quickly.

use std::collections::HashMap;

use super::facts::listed;
use super::images::{features, find_images_where, image_of, Features};
use super::shape::{Located, Shape};
use crate::baseline::shape::Shape as Places;
use crate::reference::facts::Fact;

/// Heaps by state and places; they are known by number.
pub struct Pool {
    groups: Vec<Group>,
    by_state: Vec<Vec<usize>>,
    by_places: HashMap<(u8, Places), usize>,
}

impl Pool {
    pub fn new(states: usize) -> Pool {
        Pool {
            groups: Vec::new(),
            by_state: vec![Vec::new(); states],
            by_places: HashMap::new(),
        }
    }

    pub fn add(&mut self, heap: &Located, number: usize) {
        let Located { state, shape } = heap;
        let next = self.groups.len();
        let group = *self.by_places.entry((*state, shape.places)).or_insert(next);
        if group == next {
            self.by_state[usize::from(*state)].push(group);
            self.groups.push(Group::new(shape.places));
        }
        self.groups[group].add(shape, number);
    }

    /// A heap at the state that satisfies the shape.
    pub fn satisfying(&self, state: u8, shape: &Shape) -> Option<usize> {
        let wanted = features(&shape.places);
        let told = listed(&shape.facts);
        let here = self.by_state[usize::from(state)].iter();
        here.map(|&group| &self.groups[group])
            .filter(|group| wanted & !group.features == 0)
            .find_map(|group| group.satisfying(shape, &told))
    }
}

/// Heaps with the same places.
struct Group {
    places: Places,
    features: Features,
    heaps: Vec<usize>,
    /// For each fact, in the order of [`Group::index`], which of the heaps it holds in, a bit for each.
    holding: Vec<Vec<u64>>,
}

impl Group {
    fn new(places: Places) -> Group {
        Group {
            places,
            features: features(&places),
            heaps: Vec::new(),
            holding: Vec::new(),
        }
    }

    fn add(&mut self, heap: &Shape, number: usize) {
        let (word, bit) = (self.heaps.len() / 64, self.heaps.len() % 64);
        self.heaps.push(number);
        for fact in heap.facts.all() {
            let cells = usize::from(self.places.cells);
            self.holding.resize(2 * cells * cells, Vec::new());
            let index = self.index(fact);
            let holding = &mut self.holding[index];
            holding.resize(word + 1, 0);
            holding[word] |= 1 << bit;
        }
    }

    fn index(&self, fact: Fact) -> usize {
        let cells = usize::from(self.places.cells);
        (fact.relation as usize * cells + fact.i) * cells + fact.j
    }

    /// One of the heaps that satisfies a shape, whose facts follow from those told.
    fn satisfying(&self, shape: &Shape, told: &[Fact]) -> Option<usize> {
        let mut found = None;
        let named = shape.facts.named();
        find_images_where(&shape.places, named, &self.places, |images| {
            found = self.first_with(told.iter().filter_map(|&fact| image_of(images, fact)));
            found.is_some()
        })?;
        found
    }

    /// The first of the heaps in which some facts hold.
    fn first_with(&self, facts: impl Iterator<Item = Fact>) -> Option<usize> {
        let mut holding: Vec<&[u64]> = Vec::new();
        for fact in facts {
            holding.push(self.holding.get(self.index(fact))?);
        }
        if holding.is_empty() {
            return self.heaps.first().copied();
        }
        let words = holding.iter().map(|words| words.len()).min()?;
        (0..words).find_map(|word| {
            let common = holding
                .iter()
                .fold(u64::MAX, |bits, words| bits & words[word]);
            (common != 0).then(|| self.heaps[64 * word + common.trailing_zeros() as usize])
        })
    }
}
