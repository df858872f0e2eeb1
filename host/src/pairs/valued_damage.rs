//! Damage to pairs of version 2 that only those can have: to their facts and to their versions.

use super::damage::damaged;
use super::facts::{in_order, random_fact};
use super::{Draft, Pair};
use crate::random::Random;
use crate::reference::facts::Fact;
use crate::reference::shape::Shape;

/// The pair with one damage, of bytes as that of any pair or of facts or versions.
pub fn damaged_values(random: &mut Random, valued: &Draft) -> Pair {
    match random.below(8) {
        0 => other_version(random, valued.pair()),
        1..=4 => with_other_facts(random, valued.clone()).pair(),
        _ => damaged(random, &valued.pair()),
    }
}

/// Another number for the version of one file or of both.
fn other_version(random: &mut Random, mut pair: Pair) -> Pair {
    let number = random.pick(&[1, 1, 1, 1, 0, 3, 130]);
    let which = random.below(4);
    if which != 0 {
        pair.certificate[0] = number;
    }
    if which <= 1 {
        pair.job[0] = number;
    }
    pair
}

/// Facts of one shape, of a member more often than not, are changed.
fn with_other_facts(random: &mut Random, mut valued: Draft) -> Draft {
    let located = match random.below(3) {
        0 => &mut valued.job.forbidden,
        _ => &mut valued.certificate.members,
    };
    let mut with_cells: Vec<&mut Shape> = located
        .iter_mut()
        .map(|located| &mut located.shape)
        .filter(|shape| shape.cells() > 0)
        .collect();
    if !with_cells.is_empty() {
        let number = random.below(with_cells.len());
        change_facts(random, with_cells[number]);
    }
    valued
}

fn change_facts(random: &mut Random, shape: &mut Shape) {
    let cells = shape.cells();
    let facts = &mut shape.facts;
    let any = random_fact(random, cells);
    if facts.is_empty() || random.once_in(5) {
        facts.push(any);
        *facts = in_order(facts.clone());
        return;
    }
    let number = random.below(facts.len());
    match random.below(7) {
        0..=1 => drop(facts.remove(number)),
        2 => facts.insert(number, facts[number]),
        3 => facts.swap(number, number.saturating_sub(1)),
        4 => facts[number] = any,
        5 => facts.push(any),
        _ => facts[number] = beyond(random, facts[number], cells),
    }
}

/// A fact in which one of the cells isn't one.
fn beyond(random: &mut Random, fact: Fact, cells: usize) -> Fact {
    let cell = random.pick(&[cells, 127, 128]);
    match random.once_in(2) {
        true => Fact { i: cell, ..fact },
        false => Fact { j: cell, ..fact },
    }
}
