//! Pairs with one cover that breaks a rule, the first or the last, at the highest cell or variable.

use crate::pairs::{anything, pair_with, Pair};
use crate::reference::certificate::Cover;
use crate::reference::cover::owed;
use crate::reference::facts::Fact;
use crate::reference::job::{Job, Located, Transition};
use crate::reference::operation::{Operation, DIFFERENT};
use crate::reference::shape::Shape;
use crate::reference::version::Version;
use crate::text::thousands;
use crate::value_extremes::in_order;
use crate::verdict::Rule;

/// No shape is at the start. What is covered is at one state, a member that has another state at the
/// third.
const START: u64 = 0;
const COVERED: u64 = 1;
const OTHER: u64 = 2;

/// The first two of eight variables stand nowhere.
const VARIABLES: [u64; 8] = [0, 0, 3, 4, 5, 6, 7, 8];

/// Twelve cells: 0 to 9 in a row, 9 and 10 linked to 11, and 11 to #.
const LINKS: [u64; 12] = [4, 5, 6, 7, 8, 9, 10, 11, 12, 14, 14, 1];

/// The pairs with their names, by rule: first those that are refused at the first cover.
pub fn pairs() -> Vec<(String, Pair)> {
    let first = Rule::ALL.iter().map(|&rule| {
        let (_, pair) = broken(rule, false);
        (format!("rule {} at the first cover", rule as u8), pair)
    });
    let last = Rule::ALL.iter().map(|&rule| {
        let (covers, pair) = broken(rule, true);
        let covers = thousands(covers as u64);
        let name = format!("rule {} at the last of {covers} covers", rule as u8);
        (name, pair)
    });
    first.chain(last).collect()
}

/// Facts are those of version 2.
fn version_of(rule: Rule) -> Version {
    match rule {
        Rule::Fact => Version::Two,
        _ => Version::One,
    }
}

/// How many covers there are, and the pair. The first covers the forbidden shape, which is that of
/// the last member too; the last covers this member's last predecessor, in which variables 1 and 2
/// stand at cells 12 and 13 behind cell 11. In version 2 all cells are in order.
fn broken(rule: Rule, is_last: bool) -> (usize, Pair) {
    let version = version_of(rule);
    let facts = match version {
        Version::One => Vec::new(),
        Version::Two => in_order(),
    };
    let whole = Located {
        state: COVERED,
        shape: Shape::of_codes(&VARIABLES, &LINKS).with_facts(facts),
    };
    let job = Job {
        version,
        variables: 8,
        states: 3,
        start: START,
        transitions: vec![Transition {
            from: COVERED,
            operation: Operation {
                kind: DIFFERENT,
                a: 1,
                b: 2,
            },
            to: COVERED,
        }],
        forbidden: vec![whole.clone()],
    };
    let (member, images) = match is_last {
        true => breaking_last(rule),
        false => breaking_first(rule),
    };
    let members = vec![anything(COVERED, VARIABLES.len()), member, whole];
    let covers = owed(&job, members.iter()).count();
    let number = if is_last { covers - 1 } else { 0 };
    let cover = Cover { member: 1, images };
    (covers, pair_with(&job, members, number, cover))
}

/// The forbidden shape itself, or for a shared path all but its last cell.
fn breaking_first(rule: Rule) -> (Located, Vec<usize>) {
    match rule {
        Rule::Path => {
            let mut links = LINKS[..11].to_vec();
            links[9..].fill(1);
            let member = Located {
                state: COVERED,
                shape: Shape::of_codes(&VARIABLES, &links),
            };
            (member, (0..11).collect())
        }
        _ => changed(rule, LINKS, (0..12).collect()),
    }
}

/// The predecessor without cells 11 and 12, which both 9 and 10 lead through; unless a shared path is
/// wanted, the link of 10 is left out.
fn breaking_last(rule: Rule) -> (Located, Vec<usize>) {
    let mut links = LINKS;
    if rule != Rule::Path {
        links[10] = 0;
    }
    changed(rule, links, (0..11).chain([13]).collect())
}

/// A member that holds by these images, changed so that it breaks a rule.
fn changed(rule: Rule, mut links: [u64; 12], mut images: Vec<usize>) -> (Located, Vec<usize>) {
    let mut variables = VARIABLES;
    let mut state = COVERED;
    match rule {
        Rule::State => state = OTHER,
        Rule::Image => images[11] = images[10],
        Rule::Variable => variables[7] = 1,
        Rule::Link => links[11] = 2,
        Rule::Path | Rule::Fact => {}
    }
    let facts = match rule {
        Rule::Fact => [&in_order()[..10], &[Fact::equal(11, 0)]].concat(),
        _ => Vec::new(),
    };
    let shape = Shape::of_codes(&variables, &links).with_facts(facts);
    (Located { state, shape }, images)
}

#[cfg(test)]
mod tests {
    use super::*;
    use crate::reference::checker::check;
    use crate::reference::cover::cover_at;
    use crate::verdict::{Broken, Verdict};

    #[test]
    fn each_breaks_its_rule_at_its_cover() {
        let names = [0, 10, 8, 11, 10, 11];
        let expected: Vec<Broken> = Rule::ALL
            .into_iter()
            .zip(names)
            .map(|(rule, name)| Broken { rule, name })
            .collect();
        let pairs = pairs();
        assert_eq!(pairs.len(), 12);
        for (number, (name, Pair { job, certificate })) in pairs.into_iter().enumerate() {
            let Verdict::Refused(refusal) = check(&job, &certificate) else {
                panic!("{name}");
            };
            assert_eq!(refusal.broken, Some(expected[number % 6]), "{name}");
            let job = Job::read(&job).unwrap();
            let cover = cover_at(&job, &certificate, refusal.place).unwrap();
            let after = refusal.place + 1 + cover.cover.images.len();
            let is_last = number >= 6;
            assert_eq!(after == certificate.len(), is_last, "{name}");
            let cells = if is_last { 14 } else { 12 };
            assert_eq!(cover.owed.covered.shape.cells(), cells, "{name}");
        }
    }
}
