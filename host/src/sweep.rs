//! Every kind of operation, with its operands standing in every way, on shapes of many cells: where
//! a checker makes predecessors in vain, one of these shows it.

use std::convert::Infallible;

use crate::baseline::predecessor::each_predecessor;
use crate::baseline::shape::{Shape, CELL, DANGLING, NOWHERE, NULL};
use crate::draw::standing;
use crate::extremes::{pair, shape};
use crate::pairs::Pair;
use crate::reference::heap::Place;
use crate::reference::operation::{operation, Operation, KINDS, VALUE_KINDS};
use crate::reference::predecessor::predecessors as predecessors_with_facts;
use crate::reference::shape as reference;
use crate::routine::words;
use crate::value_extremes::{self, all_equal, in_order};

const MOST_COVERS: usize = 60_000;
const MEMBERS: usize = 64;

/// Those with facts take more room.
const VALUED_MEMBERS: usize = 8;

/// The variables that an operation names stand as they do; the third is at #.
const VARIABLES: usize = 3;

struct Frame {
    name: &'static str,
    links: &'static [u64],
    /// The cells that a variable is tried at.
    tried: &'static [u8],
}

const FRAMES: [Frame; 4] = [
    Frame {
        name: "chain of 12",
        links: &[4, 5, 6, 7, 8, 9, 10, 11, 12, 13, 14, 1],
        tried: &[CELL, CELL + 11],
    },
    Frame {
        name: "ring of 12",
        links: &[4, 5, 6, 7, 8, 9, 10, 11, 12, 13, 14, 3],
        tried: &[CELL],
    },
    Frame {
        name: "12 loose cells",
        links: &[0; 12],
        tried: &[CELL],
    },
    Frame {
        name: "no cells",
        links: &[],
        tried: &[],
    },
];

/// The pairs with what they are. In each, an operation is undone on so many members, if the covers
/// have room; two at least.
pub fn pairs(visits: usize) -> Vec<(String, Pair)> {
    let of_frame = |frame| of_frame(frame, visits);
    FRAMES.iter().flat_map(of_frame).collect()
}

fn of_frame(frame: &Frame, visits: usize) -> Vec<(String, Pair)> {
    let mut pairs = Vec::new();
    for (a_operand, b_operand) in [(1, 2), (1, 1), (1, 0), (0, 1)] {
        for (a, b) in standing_ways(frame, b_operand) {
            let member = shape(&[a.into(), b.into(), 1], frame.links);
            let operations =
                KINDS.filter_map(|kind| operation(kind, a_operand, b_operand, VARIABLES as u64));
            pairs.extend(operations.map(|operation| {
                let name = format!("{}, {}", description(operation, a, b), frame.name);
                (name, undone(operation, &member, visits))
            }));
        }
    }
    pairs
}

/// Where the first two variables are tried; the second is at # unless it is the second operand.
fn standing_ways(frame: &Frame, b_operand: u64) -> Vec<(u8, u8)> {
    let places = [&[NOWHERE, NULL, DANGLING], frame.tried].concat();
    let others = if b_operand == 2 { &places[..] } else { &[NULL] };
    let with_others = |&a: &u8| others.iter().map(move |&b| (a, b));
    places.iter().flat_map(with_others).collect()
}

/// The same for the operations that test or write values, on cells that are in order and on cells that
/// are all equal.
pub fn value_pairs(visits: usize) -> Vec<(String, Pair)> {
    let of_frame = |frame| value_pairs_of(frame, visits);
    FRAMES.iter().flat_map(of_frame).collect()
}

fn value_pairs_of(frame: &Frame, visits: usize) -> Vec<(String, Pair)> {
    let facts = match frame.links.is_empty() {
        true => vec![("no facts", Vec::new())],
        false => vec![("in order", in_order()), ("all equal", all_equal())],
    };
    let mut pairs = Vec::new();
    for (a_operand, b_operand) in [(1, 2), (1, 1), (1, 0)] {
        for (a, b) in standing_ways(frame, b_operand) {
            for (told, facts) in &facts {
                let member = reference::Shape::of_codes(&[a.into(), b.into(), 1], frame.links);
                let member = member.with_facts(facts.clone());
                let operations = VALUE_KINDS
                    .filter_map(|kind| operation(kind, a_operand, b_operand, VARIABLES as u64));
                pairs.extend(operations.map(|operation| {
                    let what = description(operation, a, b);
                    let name = format!("{what}, {}, {told}", frame.name);
                    (name, undone_with_values(operation, &member, visits))
                }));
            }
        }
    }
    pairs
}

/// Enough members and transitions for the wanted visits. A member that covers all comes first.
fn undone_with_values(operation: Operation, member: &reference::Shape, visits: usize) -> Pair {
    let all = value_extremes::anything(VARIABLES);
    let before = |shape: &reference::Shape| predecessors_with_facts(shape, operation).len();
    let made = before(member).max(before(&all));
    let visits = visits.min(MOST_COVERS / made.max(1));
    let members = VALUED_MEMBERS.min(visits);
    value_extremes::pair(operation, visits / members, &all, (member, members - 1))
}

/// Enough members and transitions for the wanted visits. A member that covers all comes first.
fn undone(operation: Operation, member: &Shape, visits: usize) -> Pair {
    let made = predecessors(member, operation).max(predecessors(&Shape::EMPTY, operation));
    let visits = visits.min(MOST_COVERS / made.max(1));
    let copies = vec![*member; MEMBERS.min(visits) - 1];
    let members = [vec![Shape::EMPTY], copies].concat();
    pair(VARIABLES, &[operation], visits / members.len(), &members)
}

fn predecessors(shape: &Shape, operation: Operation) -> usize {
    let mut count = 0;
    let Ok(()) = each_predecessor(shape, operation, &mut |_| -> Result<(), Infallible> {
        count += 1;
        Ok(())
    });
    count
}

fn description(operation: Operation, a: u8, b: u8) -> String {
    let name = |operand: usize| ["null", "a", "b"][operand];
    let named = [(1, a), (2, b)]
        .into_iter()
        .filter(|&(variable, _)| operation.a == variable || operation.b == variable)
        .map(|(variable, place)| {
            let standing = standing(Place::of_code(place.into()));
            format!("{} {standing}", name(variable))
        });
    let standing = named.collect::<Vec<_>>().join(", ");
    format!("`{}`, {standing}", words(operation, name))
}

#[cfg(test)]
mod tests {
    use super::*;
    use crate::baseline::checker::check;
    use crate::verdict::Verdict;

    #[test]
    fn those_with_values_are_accepted() {
        for (visits, turns) in [(2, 1), (300, 9)] {
            let pairs = value_pairs(visits);
            assert!(pairs.len() > 500, "only {}", pairs.len());
            for (name, pair) in pairs.into_iter().step_by(turns) {
                let verdict = check(&pair.job, &pair.certificate);
                assert!(matches!(verdict, Verdict::Accepted(_)), "{name}: {verdict}");
            }
        }
    }

    #[test]
    fn all_are_accepted() {
        for visits in [2, 200] {
            let pairs = pairs(visits);
            assert!(pairs.len() > 500, "only {}", pairs.len());
            for (name, pair) in pairs {
                let verdict = check(&pair.job, &pair.certificate);
                assert!(matches!(verdict, Verdict::Accepted(_)), "{name}: {verdict}");
            }
        }
    }
}
