//! Random jobs of version 2 with certificates that are accepted: members closed backwards by the
//! reference's predecessors, with covers by its embedding.

use super::accepted::{random_operation, up_to};
use super::codes::Codes;
use super::facts::{find_images, random_facts, without_cell};
use super::{anything, Draft};
use crate::random::Random;
use crate::reference::certificate::{Certificate, Cover};
use crate::reference::checker::{empty_heap_satisfies, MOST_BYTES};
use crate::reference::facts::closed;
use crate::reference::job::{Job, Located, Transition, MOST_TRANSITIONS, MOST_VARIABLES};
use crate::reference::operation::{Operation, VALUE_KINDS};
use crate::reference::predecessor::predecessors;
use crate::reference::shape::{Shape, MOST_CELLS};
use crate::reference::version::Version;

/// How large a pair is wanted.
struct Size {
    most_transitions: usize,
    /// The most members that not every heap satisfies.
    particular: usize,
    fewest_covers: usize,
    most_covers: usize,
}

const SMALL: Size = Size {
    most_transitions: 2,
    particular: 4,
    fewest_covers: 0,
    most_covers: 12,
};

const MEDIUM: Size = Size {
    most_transitions: 10,
    particular: 20,
    fewest_covers: 12,
    most_covers: 150,
};

const LARGE: Size = Size {
    most_transitions: 40,
    particular: 40,
    fewest_covers: 200,
    most_covers: 2_000,
};

/// A pair that is accepted. Jobs are tried until one has a certificate of the size drawn.
pub fn valued(random: &mut Random) -> Draft {
    let size = match random.below(40) {
        0 => LARGE,
        1..=15 => MEDIUM,
        _ => SMALL,
    };
    loop {
        if let Some(valued) = valued_of(random, &size) {
            return valued;
        }
    }
}

fn valued_of(random: &mut Random, size: &Size) -> Option<Draft> {
    let mut job = random_job(random, size);
    let (members, covers) = closed_members(random, &job, size.particular, size.most_covers)?;
    job.start = safe_start(random, &job, &members)?;
    let certificate = Certificate {
        version: Version::Two,
        members,
        covers,
    };
    let fits = certificate.covers.len() >= size.fewest_covers
        && certificate.bytes().len() <= MOST_BYTES
        && job.bytes().len() <= MOST_BYTES;
    fits.then_some(Draft { job, certificate })
}

fn random_job(random: &mut Random, size: &Size) -> Job {
    let variables = 1 + up_to(random, &[0, 1, 2, 3], MOST_VARIABLES as usize - 1);
    let states = 1 + up_to(random, &[1, 2, 4], 9);
    let bound = random.pick(&[size.most_transitions / 2, size.most_transitions]);
    let transitions = up_to(random, &[bound], MOST_TRANSITIONS as usize / 4);
    let bads = 1 + up_to(random, &[0, 0, 2], 9);
    // Mostly no transition leaves the last state, so that it can be the start.
    let left = states - usize::from(states > 1 && !random.once_in(4));
    Job {
        version: Version::Two,
        variables: variables as u64,
        states: states as u64,
        start: 0,
        transitions: (0..transitions)
            .map(|_| Transition {
                from: random.below(left) as u64,
                operation: operation_on_values(random, variables),
                to: random.below(states) as u64,
            })
            .collect(),
        forbidden: (0..bads)
            .map(|_| Located {
                state: random.below(states) as u64,
                shape: random_shape(random, variables),
            })
            .collect(),
    }
}

/// Mostly one that tests or writes values, and of those one in three with one variable for both
/// operands.
fn operation_on_values(random: &mut Random, variables: usize) -> Operation {
    let mut operation = random_operation(random, Version::Two, variables);
    while !VALUE_KINDS.contains(&operation.kind) && !random.once_in(2) {
        operation = random_operation(random, Version::Two, variables);
    }
    if VALUE_KINDS.contains(&operation.kind) && operation.b > 0 && random.once_in(3) {
        operation.b = operation.a;
    }
    operation
}

pub fn random_shape(random: &mut Random, variables: usize) -> Shape {
    let cells = up_to(random, &[0, 1, 2, 4, 4, 12], MOST_CELLS as usize);
    let mut codes = Codes::random(random, variables, cells);
    for place in codes.variables.iter_mut().chain(&mut codes.links) {
        if random.once_in(3) {
            *place = 0;
        }
    }
    codes.facts = random_facts(random, cells);
    codes.located(0).shape
}

/// Members closed under predecessors, with their covers, for a job of either version. Up to so many
/// members not every heap satisfies. Nothing where more covers would be needed.
pub fn closed_members(
    random: &mut Random,
    job: &Job,
    particular: usize,
    most_covers: usize,
) -> Option<(Vec<Located>, Vec<Cover>)> {
    let mut closing = Closing {
        particular: 1 + random.below(particular),
        random,
        most_covers,
        members: Vec::new(),
        covers: Vec::new(),
    };
    for bad in &job.forbidden {
        closing.cover(bad)?;
    }
    let mut next = 0;
    while let Some(member) = closing.members.get(next).cloned() {
        let transitions = job.transitions.iter();
        for transition in transitions.filter(|by| by.to == member.state) {
            for shape in predecessors(&member.shape, transition.operation) {
                let state = transition.from;
                closing.cover(&Located { state, shape })?;
            }
        }
        next += 1;
    }
    Some((closing.members, closing.covers))
}

/// The first members are particular ones, made more general by chance; then come ones that anything
/// satisfies.
struct Closing<'a> {
    random: &'a mut Random,
    particular: usize,
    most_covers: usize,
    members: Vec<Located>,
    covers: Vec<Cover>,
}

impl Closing<'_> {
    /// Covers a shape by a member, which is added if there is none; nothing where it is one cover too
    /// many.
    fn cover(&mut self, needed: &Located) -> Option<()> {
        if self.covers.len() == self.most_covers {
            return None;
        }
        if self.covering(needed).is_none() {
            let is_particular = self.members.len() < self.particular;
            self.members.push(match is_particular {
                true => more_general(self.random, needed),
                false => anything(needed.state, needed.shape.variables.len()),
            });
        }
        let cover = self.covering(needed)?;
        self.covers.push(cover);
        Some(())
    }

    fn covering(&self, needed: &Located) -> Option<Cover> {
        let numbered = self.members.iter().enumerate();
        let mut here = numbered.filter(|(_, member)| member.state == needed.state);
        here.find_map(|(number, member)| {
            Some(Cover {
                member: number,
                images: find_images(&member.shape, &needed.shape)?,
            })
        })
    }
}

/// The shape with some of what follows from its facts, less some places, facts and cells, and with
/// cells few enough for a file.
fn more_general(random: &mut Random, needed: &Located) -> Located {
    let mut shape = needed.shape.clone();
    if random.once_in(2) {
        shape.facts = closed(&shape.facts);
    }
    for _ in 0..random.pick(&[0, 0, 1, 2, 4]) {
        shape = simpler(random, shape);
    }
    while shape.cells() as u64 > MOST_CELLS {
        shape = without_cell(&shape, random.below(shape.cells()));
    }
    let state = needed.state;
    Located { state, shape }
}

/// Without a place, a fact or a cell, if there is what is chosen.
fn simpler(random: &mut Random, mut shape: Shape) -> Shape {
    let (variables, cells) = (shape.variables.len(), shape.cells());
    let facts = shape.facts.len();
    match random.below(8) {
        0..=1 => shape.variables[random.below(variables)] = None,
        2..=3 if cells > 0 => shape.links[random.below(cells)] = None,
        4..=6 if facts > 0 => drop(shape.facts.remove(random.below(facts))),
        7 if cells > 0 => shape = without_cell(&shape, random.below(cells)),
        _ => {}
    }
    shape
}

/// A state at which the empty heap satisfies no member.
pub fn safe_start(random: &mut Random, job: &Job, members: &[Located]) -> Option<u64> {
    let is_safe = |&state: &u64| {
        let mut here = members.iter().filter(|member| member.state == state);
        !here.any(|member| empty_heap_satisfies(&member.shape))
    };
    let safe: Vec<u64> = (0..job.states).filter(is_safe).collect();
    (!safe.is_empty()).then(|| random.pick(&safe))
}

#[cfg(test)]
mod tests {
    use std::collections::BTreeSet;

    use super::*;
    use crate::reference::checker::check;
    use crate::reference::facts::is_consistent;
    use crate::verdict::Verdict;

    /// All are accepted. Every kind is undone, those on two values with one variable and with two; facts
    /// are few and so many that their number takes two bytes; some put a cell below itself.
    #[test]
    fn right_pairs_are_accepted_and_come_to_everything() {
        let mut random = Random::new(0x25_5eed);
        let mut kinds = BTreeSet::new();
        let mut covers = BTreeSet::new();
        let mut most_facts = 0;
        let mut contradictory = 0;
        for _ in 0..900 {
            let Draft { job, certificate } = valued(&mut random);
            let verdict = check(&job.bytes(), &certificate.bytes());
            let Verdict::Accepted(counts) = verdict else {
                panic!("{verdict}: {job:?} {certificate:?}");
            };
            covers.insert(counts.covers);
            for member in &certificate.members {
                let into = job.transitions.iter().filter(|by| by.to == member.state);
                for Transition { operation, .. } in into {
                    if !predecessors(&member.shape, *operation).is_empty() {
                        kinds.insert((operation.kind, operation.a == operation.b));
                    }
                }
                let facts = &member.shape.facts;
                most_facts = most_facts.max(facts.len());
                contradictory += usize::from(!is_consistent(&closed(facts)));
            }
        }
        let expected = (1..=13).flat_map(|kind| [(kind, false), (kind, true)]);
        // Different places, or values one of which is below the other, are those of two variables;
        // new, delete and read have no second operand.
        let only_apart = [2, 6, 7, 9, 13].map(|kind| (kind, true));
        let expected = expected.filter(|row| !only_apart.contains(row));
        assert_eq!(kinds, expected.collect());
        assert!(most_facts >= 128, "{most_facts}");
        assert!(contradictory > 10, "{contradictory}");
        assert!(covers.first() == Some(&1) && covers.last() > Some(&200));
    }
}
