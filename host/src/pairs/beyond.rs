//! Pairs of version 2 with what version 1 lacks at chosen spots and nowhere else: kinds above 7, and
//! facts. They can be read; their covers needn't hold.

use super::accepted::random_operation;
use super::facts::random_facts;
use super::{anything, Pair};
use crate::random::Random;
use crate::reference::certificate::Cover;
use crate::reference::cover::owed;
use crate::reference::job::{Job, Located, Transition};
use crate::reference::operation::{Operation, VALUE_KINDS};
use crate::reference::shape::Shape;
use crate::reference::version::Version;

/// Where a pair may have what version 1 lacks, by number.
#[derive(Clone, Copy)]
enum Spot {
    Transition(usize),
    Forbidden(usize),
    Member(usize),
}

/// A job, and members for a certificate.
struct Members {
    job: Job,
    members: Vec<Located>,
}

/// The pair of a turn: with no such spot, with the first, one in the middle or the last, with two, or with
/// all of them.
pub fn beyond(random: &mut Random, turn: usize) -> Pair {
    let mut plain = plain(random);
    let spots = plain.spots();
    let count = spots.len();
    let any = |random: &mut Random| random.below(count);
    let chosen = match turn % 8 {
        0 => vec![],
        1 => vec![0],
        2 => vec![count / 2],
        3 => vec![count - 1],
        4 => vec![any(random)],
        5 | 6 => vec![any(random), any(random)],
        _ => (0..count).collect(),
    };
    for number in chosen {
        plain.put(random, spots[number]);
    }
    plain.pair()
}

/// Nothing that version 1 lacks; now and then so many transitions or members that their number takes two
/// bytes.
fn plain(random: &mut Random) -> Members {
    let variables = 1 + random.below(3);
    let states = 1 + random.below(4);
    let (transitions, members) = match random.below(12) {
        0 => (130, 1),
        1 => (1, 130),
        _ => (random.below(7), random.below(7)),
    };
    let transitions: Vec<Transition> = (0..transitions)
        .map(|_| Transition {
            from: random.below(states) as u64,
            operation: random_operation(random, Version::One, variables),
            to: random.below(states) as u64,
        })
        .collect();
    let at = random.below(states) as u64;
    let mut located = |count: usize| -> Vec<Located> {
        let located = (0..count).map(|_| with_cells(random, variables, states));
        located.collect()
    };
    let forbidden = located(1 + transitions.len() % 5);
    let mut members = located(members);
    members.insert(members.len() / 2, anything(at, variables));
    let job = Job {
        version: Version::Two,
        variables: variables as u64,
        states: states as u64,
        start: 0,
        transitions,
        forbidden,
    };
    Members { job, members }
}

/// A shape that may have facts.
fn with_cells(random: &mut Random, variables: usize, states: usize) -> Located {
    let cells = 1 + random.below(4);
    let mut codes = |count: usize| -> Vec<u64> {
        let codes = (0..count).map(|_| random.below(3 + cells) as u64);
        codes.collect()
    };
    let shape = Shape::of_codes(&codes(variables), &codes(cells));
    let state = random.below(states) as u64;
    Located { state, shape }
}

impl Members {
    /// All spots, in the order of the files.
    fn spots(&self) -> Vec<Spot> {
        let transitions = (0..self.job.transitions.len()).map(Spot::Transition);
        let forbidden = (0..self.job.forbidden.len()).map(Spot::Forbidden);
        let members = self.members.iter().enumerate();
        let with_cells = members.filter(|(_, member)| member.shape.cells() > 0);
        let with_cells = with_cells.map(|(number, _)| Spot::Member(number));
        transitions.chain(forbidden).chain(with_cells).collect()
    }

    fn put(&mut self, random: &mut Random, spot: Spot) {
        let located = match spot {
            Spot::Transition(number) => {
                let operation = operation_on_values(random, self.job.variables as usize);
                self.job.transitions[number].operation = operation;
                return;
            }
            Spot::Forbidden(number) => &mut self.job.forbidden[number],
            Spot::Member(number) => &mut self.members[number],
        };
        let shape = &mut located.shape;
        while shape.facts.is_empty() {
            shape.facts = random_facts(random, shape.cells());
        }
    }

    /// Each cover is by the member without cells.
    fn pair(self) -> Pair {
        let Members { job, members } = self;
        let without_cells = members.iter().position(|member| member.shape.cells() == 0);
        let cover = Cover {
            member: without_cells.expect("there is one"),
            images: Vec::new(),
        };
        let covers = vec![cover; owed(&job, members.iter()).count()];
        Pair::of(&job, members, covers)
    }
}

fn operation_on_values(random: &mut Random, variables: usize) -> Operation {
    loop {
        let operation = random_operation(random, Version::Two, variables);
        if VALUE_KINDS.contains(&operation.kind) {
            return operation;
        }
    }
}
