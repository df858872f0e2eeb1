//! Shapes as codes of places, and the parts of them that embed.

use super::facts::{in_order, random_fact};
use crate::random::Random;
use crate::reference::facts::{closed, Fact};
use crate::reference::job::Located;
use crate::reference::shape::Shape;
use crate::reference::version::Version;

/// The code of cell 0.
const CELL: u64 = 3;

/// A shape as codes of places, with facts.
pub struct Codes {
    pub variables: Vec<u64>,
    pub links: Vec<u64>,
    pub facts: Vec<Fact>,
}

impl Codes {
    /// Most links are to cells, so that paths are long and many meet. There are no facts.
    pub fn random(random: &mut Random, variables: usize, cells: usize) -> Codes {
        let mut place = || match random.below(8) {
            0 => random.below(3) as u64,
            _ => random.below(CELL as usize + cells) as u64,
        };
        Codes {
            variables: (0..variables).map(|_| place()).collect(),
            links: (0..cells).map(|_| place()).collect(),
            facts: Vec::new(),
        }
    }

    /// Those of a shape, with all that follows from its facts.
    pub fn of(shape: &Shape) -> Codes {
        let numbers = shape.numbers(Version::One);
        let (variables, links) = numbers[1..].split_at(shape.variables.len());
        Codes {
            variables: variables.to_vec(),
            links: links.to_vec(),
            facts: closed(&shape.facts),
        }
    }

    /// The shape of the images and the paths between them; some places and facts are left out. It
    /// embeds by these images unless one is used twice or two paths meet.
    pub fn part(&self, random: &mut Random, images: &[usize]) -> Codes {
        let facts = self.facts_of_part(random, images);
        let mut sometimes = |place: u64| if random.once_in(5) { 0 } else { place };
        Codes {
            facts,
            variables: self
                .variables
                .iter()
                .map(|&place| sometimes(preimage(place, images).unwrap_or(0)))
                .collect(),
            links: images
                .iter()
                .map(|&cell| sometimes(self.first_met(cell, images)))
                .collect(),
        }
    }

    /// Some of the facts on images, as facts of the part.
    fn facts_of_part(&self, random: &mut Random, images: &[usize]) -> Vec<Fact> {
        let part_of = |cell: usize| images.iter().position(|&image| image == cell);
        let both = |fact: &Fact| {
            Some(Fact {
                relation: fact.relation,
                i: part_of(fact.i)?,
                j: part_of(fact.j)?,
            })
        };
        let facts = self.facts.iter().filter_map(both);
        in_order(facts.filter(|_| random.once_in(2)).collect())
    }

    /// What following links from a cell meets first, as a place of the part; nowhere if nothing.
    fn first_met(&self, cell: usize, images: &[usize]) -> u64 {
        let mut place = self.links[cell];
        for _ in 0..self.links.len() {
            match preimage(place, images) {
                Some(met) => return met,
                None => place = self.links[(place - CELL) as usize],
            }
        }
        0
    }

    /// Puts a variable to any place.
    pub fn change_variable(&mut self, random: &mut Random) {
        let variable = some_index(random, self.variables.len());
        self.variables[variable] = self.any_place(random);
    }

    /// Puts the link of a cell to any place, if there are cells.
    pub fn change_link(&mut self, random: &mut Random) {
        if !self.links.is_empty() {
            let cell = some_index(random, self.links.len());
            self.links[cell] = self.any_place(random);
        }
    }

    /// Adds any fact, if there are cells.
    pub fn add_fact(&mut self, random: &mut Random) {
        if !self.links.is_empty() {
            self.facts.push(random_fact(random, self.links.len()));
        }
    }

    fn any_place(&self, random: &mut Random) -> u64 {
        random.below(CELL as usize + self.links.len()) as u64
    }

    pub fn located(&self, state: u64) -> Located {
        Located {
            state,
            shape: Shape::of_codes(&self.variables, &self.links)
                .with_facts(in_order(self.facts.clone())),
        }
    }
}

/// So many different numbers below a bound, in any order.
pub fn some_numbers(random: &mut Random, bound: usize, count: usize) -> Vec<usize> {
    let mut left: Vec<usize> = (0..bound).collect();
    (0..count)
        .map(|_| left.swap_remove(random.below(left.len())))
        .collect()
}

/// The first of so many, the last or any.
pub fn some_index(random: &mut Random, count: usize) -> usize {
    let any = random.below(count);
    random.pick(&[0, count - 1, any])
}

/// The place whose image a place is: nowhere, # and * are their own; nothing for other cells.
pub fn preimage(place: u64, images: &[usize]) -> Option<u64> {
    match place {
        0..CELL => Some(place),
        cell => {
            let image = (cell - CELL) as usize;
            let number = images.iter().position(|&other| other == image)?;
            Some(CELL + number as u64)
        }
    }
}
