//! A delete with one to seven dangling variables beside its own. Each case before it has a cover of
//! its own, which tells where these variables stood; the covers are as the rule has it, as a rule has it
//! that is wrong, or with one changed.

use super::codes::{preimage, some_numbers, Codes};
use super::{anything, Pair};
use crate::random::Random;
use crate::reference::certificate::Cover;
use crate::reference::embedding::embeds;
use crate::reference::heap::Place;
use crate::reference::job::{Job, Located, Transition, MOST_VARIABLES};
use crate::reference::operation::{Operation, DELETE, EQUAL};
use crate::reference::predecessor::predecessors;
use crate::reference::shape::{Shape, MOST_CELLS};
use crate::reference::version::Version;

/// No shape is at the start. The delete leads from one state to another.
const START: u64 = 0;
const BEFORE: u64 = 1;
const AFTER: u64 = 2;

const NOWHERE: u64 = 0;
const DANGLING: u64 = 2;
const DANGLES: Option<Place> = Some(Place::Dangling);

const MOST_DANGLING: usize = MOST_VARIABLES as usize - 1;

/// How the cases are listed and told.
#[derive(Clone, Copy, Debug, PartialEq, Eq)]
enum Listed {
    Rightly,
    /// As if that a variable stood at the deleted cell came first.
    StoodFirst,
    /// As if the highest variable changed slowest.
    HighestSlowest,
    /// As if the deleted variable gave two cases as well.
    Doubled,
    /// One for all cases, as if the variables that dangle were forgotten.
    Forgotten,
    /// As if links to * were not forgotten.
    LinksKept,
    /// As if the deleted cell were linked to *.
    DeletedLinked,
    Swapped,
    OneMissing,
    OneTooMany,
}

const WRONGLY: [Listed; 9] = [
    Listed::StoodFirst,
    Listed::HighestSlowest,
    Listed::Doubled,
    Listed::Forgotten,
    Listed::LinksKept,
    Listed::DeletedLinked,
    Listed::Swapped,
    Listed::OneMissing,
    Listed::OneTooMany,
];

/// The pair of a turn: every number of dangling variables, listed rightly and in each wrong way.
pub fn deletes(random: &mut Random, turn: usize) -> Pair {
    let (dangling, round) = (1 + turn % MOST_DANGLING, turn / MOST_DANGLING);
    let listed = match round % 2 {
        0 => Listed::Rightly,
        _ => WRONGLY[round / 2 % WRONGLY.len()],
    };
    with_delete(random, dangling, listed)
}

/// The member after the delete comes first, one that covers anything before it second, then one for
/// each case.
fn with_delete(random: &mut Random, dangling: usize, listed: Listed) -> Pair {
    let variables = dangling + 1 + random.below(MOST_VARIABLES as usize - dangling);
    let told = some_numbers(random, variables, dangling + 1);
    let whole = whole(random, variables, &told, listed);
    let delete = Operation {
        kind: DELETE,
        a: told[0] + 1,
        b: 0,
    };
    let of_whole = Cover {
        member: 0,
        images: (0..whole.shape.cells()).collect(),
    };
    let of_anything = Cover {
        member: 1,
        images: Vec::new(),
    };
    let linked = linked(&whole.shape, listed);
    let mut members = vec![whole.clone(), anything(BEFORE, variables)];
    let mut covers = Vec::new();
    for case in predecessors(&whole.shape, delete) {
        let (member, images) = match linked.is_empty() {
            true => part(random, &case, &told),
            false => all_of(&case, &linked),
        };
        covers.push(Cover {
            member: members.len(),
            images,
        });
        members.push(member);
    }
    let numbers = numbers(random, covers.len(), listed, &told);
    covers.push(of_anything.clone());
    let covers = numbers.iter().map(|&number| covers[number].clone());
    let (ahead, behind) = (random.below(2), random.below(2));
    let job = Job {
        version: Version::One,
        variables: variables as u64,
        states: 3,
        start: START,
        transitions: transitions(delete, ahead, behind),
        forbidden: vec![whole],
    };
    let skipped = |count| vec![of_anything.clone(); count];
    let parts = [
        vec![of_whole],
        skipped(ahead),
        covers.collect(),
        skipped(behind),
    ];
    Pair::of(&job, members, parts.concat())
}

/// The first of some variables, the deleted one, is nowhere or at *, the others of them are at *; those
/// beside them stand anywhere else.
fn whole(random: &mut Random, variables: usize, told: &[usize], listed: Listed) -> Located {
    let cells = match listed {
        Listed::LinksKept | Listed::DeletedLinked => 1 + random.below(MOST_CELLS as usize - 1),
        _ => random.below(MOST_CELLS as usize + 1),
    };
    let mut codes = Codes::random(random, variables, cells);
    for place in &mut codes.variables {
        if *place == DANGLING {
            *place = NOWHERE;
        }
    }
    if listed == Listed::LinksKept {
        codes.links[random.below(cells)] = DANGLING;
    }
    for &variable in told {
        codes.variables[variable] = DANGLING;
    }
    if listed != Listed::Doubled && random.once_in(2) {
        codes.variables[told[0]] = NOWHERE;
    }
    codes.located(AFTER)
}

/// The delete, among so many transitions that do nothing.
fn transitions(delete: Operation, ahead: usize, behind: usize) -> Vec<Transition> {
    let skip = Operation {
        kind: EQUAL,
        a: 0,
        b: 0,
    };
    let operations = [vec![skip; ahead], vec![delete], vec![skip; behind]].concat();
    let transition = |operation| Transition {
        from: BEFORE,
        operation,
        to: AFTER,
    };
    operations.into_iter().map(transition).collect()
}

/// The cells that are told to be linked to * although they aren't in any case.
fn linked(whole: &Shape, listed: Listed) -> Vec<usize> {
    let is_kept = |&cell: &usize| whole.links[cell] == DANGLES;
    match listed {
        Listed::LinksKept => (0..whole.cells()).filter(is_kept).collect(),
        Listed::DeletedLinked => vec![whole.cells()],
        _ => Vec::new(),
    }
}

/// All of a case, with links to * from some cells, and its images.
fn all_of(case: &Shape, linked: &[usize]) -> (Located, Vec<usize>) {
    let mut shape = case.clone();
    for &cell in linked {
        shape.links[cell] = DANGLES;
    }
    let images = (0..shape.cells()).collect();
    let state = BEFORE;
    (Located { state, shape }, images)
}

/// A part of a case with its images: the deleted cell, which is the case's last, and some others if no
/// two of their paths meet. What is told of the variables is in it.
fn part(random: &mut Random, case: &Shape, told: &[usize]) -> (Located, Vec<usize>) {
    let deleted = case.cells() - 1;
    let count = random.below(MOST_CELLS as usize).min(deleted);
    let mut images = some_numbers(random, deleted, count);
    images.insert(random.below(count + 1), deleted);
    let member = part_by(random, case, &images, told);
    if embeds(&member.shape, case, &images) {
        return (member, images);
    }
    (part_by(random, case, &[deleted], told), vec![deleted])
}

fn part_by(random: &mut Random, case: &Shape, images: &[usize], told: &[usize]) -> Located {
    let codes = Codes::of(case);
    let mut part = codes.part(random, images);
    for &variable in told {
        let place = preimage(codes.variables[variable], images);
        part.variables[variable] = place.expect("it is at * or at the deleted cell");
    }
    part.located(BEFORE)
}

/// The numbers of so many cases as they are listed; the next number is for all of them.
fn numbers(random: &mut Random, count: usize, listed: Listed, told: &[usize]) -> Vec<usize> {
    let mut numbers: Vec<usize> = (0..count).collect();
    match listed {
        Listed::Rightly | Listed::LinksKept | Listed::DeletedLinked => {}
        Listed::StoodFirst => numbers.reverse(),
        Listed::HighestSlowest => {
            let unused = usize::BITS - count.ilog2();
            let reversed = |number: usize| number.reverse_bits() >> unused;
            numbers = (0..count).map(reversed).collect();
        }
        Listed::Doubled => {
            let higher = told.iter().filter(|&&variable| variable > told[0]).count();
            let without_a = |number| (number >> (higher + 1) << higher) | (number % (1 << higher));
            numbers = (0..2 * count).map(without_a).collect();
        }
        Listed::Forgotten => numbers = vec![count],
        Listed::Swapped => {
            let one = random.below(count);
            numbers.swap(one, (one + 1 + random.below(count - 1)) % count);
        }
        Listed::OneMissing => {
            numbers.remove(random.below(count));
        }
        Listed::OneTooMany => numbers.insert(random.below(count + 1), random.below(count)),
    }
    numbers
}

#[cfg(test)]
mod tests {
    use std::collections::BTreeSet;

    use super::*;
    use crate::reference::certificate::read_members;
    use crate::reference::checker::check;
    use crate::reference::reader::Reader;
    use crate::verdict::Verdict;

    const EACH: usize = 30;

    /// So many pairs listed in a way, by their number of dangling variables.
    fn pairs(listed: Listed) -> Vec<(usize, Pair)> {
        let mut random = Random::new(0x17_5eed);
        let mut pair = |dangling| (dangling, with_delete(&mut random, dangling, listed));
        (0..EACH)
            .flat_map(|_| 1..=MOST_DANGLING)
            .map(&mut pair)
            .collect()
    }

    fn verdict(pair: &Pair) -> Verdict {
        check(&pair.job, &pair.certificate)
    }

    #[test]
    fn right_lists_are_accepted_and_wrong_ones_refused() {
        for (dangling, pair) in pairs(Listed::Rightly) {
            let Verdict::Accepted(counts) = verdict(&pair) else {
                panic!("{}", verdict(&pair));
            };
            assert_eq!(counts.members, 2 + (1 << dangling));
            assert!((1..4).contains(&(counts.covers - (1 << dangling))));
        }
        let mut numbers = BTreeSet::new();
        for listed in WRONGLY {
            for (dangling, pair) in pairs(listed) {
                let is_right = listed == Listed::HighestSlowest && dangling == 1;
                let verdict = verdict(&pair);
                assert_eq!(verdict.number() == 0, is_right, "{listed:?}: {verdict}");
                numbers.insert(verdict.number());
            }
        }
        assert_eq!(numbers, BTreeSet::from([0, 6, 7, 9, 10]));
    }

    /// The turns have every number of dangling variables with every list, the deleted variable first
    /// and last, and shapes without cells and with the most.
    #[test]
    fn turns_come_to_everything() {
        let mut random = Random::new(3);
        let mut deleted = BTreeSet::new();
        let mut cells = BTreeSet::new();
        let mut covers = BTreeSet::new();
        for turn in 0..1_000 {
            let pair = deletes(&mut random, turn);
            let job = Job::read(&pair.job).unwrap();
            let operations = job.transitions.iter().map(|by| by.operation);
            deleted.extend(operations.filter(|by| by.kind == DELETE).map(|by| by.a));
            cells.insert(job.forbidden[0].shape.cells());
            if let Verdict::Accepted(counts) = verdict(&pair) {
                covers.insert(counts.covers);
            }
        }
        assert!(deleted.into_iter().eq(1..=8));
        assert!(cells.into_iter().eq(0..=12));
        assert_eq!(covers.first(), Some(&3));
        assert_eq!(covers.last(), Some(&131));
    }

    /// A checker by a wrong rule accepts what is listed by its rule, which the reference refuses, and
    /// refuses right lists of many pairs.
    #[test]
    fn wrong_rules_would_tell() {
        let right = pairs(Listed::Rightly);
        for rule in &WRONGLY[..6] {
            for (_, pair) in pairs(*rule) {
                assert!(accepts(*rule, &pair), "{rule:?}: {pair:?}");
            }
            // What tells too much of links is told by the pairs above alone.
            let refused = right.iter().filter(|(_, pair)| !accepts(*rule, pair));
            let is_many = 3 * refused.count() > right.len();
            let of_links = [Listed::LinksKept, Listed::DeletedLinked].contains(rule);
            assert_ne!(is_many, of_links, "{rule:?}");
        }
        assert!(right.iter().all(|(_, pair)| accepts(Listed::Rightly, pair)));
    }

    /// Whether a checker accepts that takes the cases before a delete by a rule.
    fn accepts(rule: Listed, pair: &Pair) -> bool {
        let job = Job::read(&pair.job).unwrap();
        let mut reader = Reader::of_certificate(&pair.certificate);
        let members = read_members(&mut reader, &job).unwrap();
        let whole = &members[0].located;
        let mut owed = vec![whole.clone()];
        for transition in &job.transitions {
            let shapes = match transition.operation {
                Operation {
                    kind: DELETE, a, ..
                } => cases(rule, &whole.shape, a),
                operation => predecessors(&whole.shape, operation),
            };
            let state = transition.from;
            owed.extend(shapes.into_iter().map(|shape| Located { state, shape }));
        }
        let holds = owed.iter().all(|covered| {
            let mut number = |below: usize| reader.number(0..below as u64).map(|n| n as usize);
            let Ok(member) = number(members.len()) else {
                return false;
            };
            let member = &members[member].located;
            let images = (0..member.shape.cells()).map(|_| number(covered.shape.cells()));
            let Ok(images) = images.collect::<Result<Vec<usize>, _>>() else {
                return false;
            };
            member.state == covered.state && embeds(&member.shape, &covered.shape, &images)
        });
        holds && reader.end(10).is_ok()
    }

    /// The cases before a delete by a rule, counted with a digit for each variable that dangles.
    fn cases(rule: Listed, shape: &Shape, a: usize) -> Vec<Shape> {
        let deleted = Some(Place::Cell(shape.cells()));
        let may_be_told = |v: usize| v != a - 1 || rule == Listed::Doubled;
        let is_told = |&v: &usize| shape.variables[v] == DANGLES && may_be_told(v);
        let mut digits: Vec<usize> = (0..shape.variables.len()).filter(is_told).collect();
        if rule == Listed::HighestSlowest {
            digits.reverse();
        }
        let mut before = shape.clone();
        for link in &mut before.links {
            *link = link.filter(|_| *link != DANGLES || rule == Listed::LinksKept);
        }
        before.links.push(match rule {
            Listed::DeletedLinked => DANGLES,
            _ => None,
        });
        if rule == Listed::Forgotten {
            for variable in digits.drain(..) {
                before.variables[variable] = None;
            }
        }
        let case = |number: usize| {
            let mut case = before.clone();
            for (digit, &variable) in digits.iter().rev().enumerate() {
                let is_one = number >> digit & 1 == 1;
                if is_one != (rule == Listed::StoodFirst) {
                    case.variables[variable] = deleted;
                }
            }
            case.variables[a - 1] = deleted;
            case
        };
        (0..1 << digits.len()).map(case).collect()
    }
}
