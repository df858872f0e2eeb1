//! A cover that breaks chosen rules, one or several, among covers that hold: of a forbidden shape, or
//! of a predecessor.

use super::accepted::random_operation;
use super::codes::{some_index, some_numbers, Codes};
use super::facts::random_facts;
use super::{anything, pair_with, Pair};
use crate::random::Random;
use crate::reference::certificate::Cover;
use crate::reference::cover::{owed, Reason};
use crate::reference::embedding::Map;
use crate::reference::job::{Job, Located, Transition, MOST_VARIABLES};
use crate::reference::shape::{Shape, MOST_CELLS};
use crate::reference::version::Version;
use crate::verdict::Rule;

/// No shape is at the start. What is covered is at one state, a member that has another state at the
/// third.
const START: u64 = 0;
const COVERED: u64 = 1;
const OTHER: u64 = 2;

/// The member whose predecessors have to be covered. One that covers anything comes before it, that of
/// the chosen cover behind it.
const WHOLE: usize = 1;

/// How often members of one shape are tried, before another shape is.
const TRIES: usize = 20;

/// The rules that a cover can break.
fn rules_of(version: Version) -> &'static [Rule] {
    match version {
        Version::One => &Rule::WITHOUT_FACTS,
        Version::Two => &Rule::ALL,
    }
}

/// How many rules can be the first that is broken, none among them; and choices of those behind it.
fn choices_of(version: Version) -> (usize, usize) {
    let rules = rules_of(version).len();
    (rules + 1, 1 << (rules - 1))
}

/// The pair of a turn. Each rule is the first that is broken as often as the others, and as often
/// none is; behind the first, every choice of the others comes in its turn.
pub fn broken(random: &mut Random, version: Version, turn: usize) -> Pair {
    let (firsts, choices) = choices_of(version);
    let first = turn % firsts;
    let of_predecessor = turn / firsts % 2 == 1;
    let others = turn / (2 * firsts) % choices;
    let numbered = rules_of(version).iter().enumerate();
    let chosen = numbered.filter(|&(n, _)| n == first || n > first && others >> (n - 1) & 1 == 1);
    let rules: Vec<Rule> = chosen.map(|(_, rule)| *rule).collect();
    loop {
        if let Some(pair) = attempt(random, version, &rules, of_predecessor) {
            return pair;
        }
    }
}

/// A pair in which one cover breaks just these rules, if it is found.
fn attempt(
    random: &mut Random,
    version: Version,
    rules: &[Rule],
    of_predecessor: bool,
) -> Option<Pair> {
    let variables = 1 + random.below(MOST_VARIABLES as usize);
    let job = random_job(random, version, variables);
    let whole = whole(random, version, variables);
    let mut members = vec![anything(COVERED, variables), whole];
    let is_wanted = |reason: Reason| match reason {
        Reason::Forbidden(_) => !of_predecessor,
        Reason::Before { member, .. } => of_predecessor && member == WHOLE,
    };
    let mut wanted: Vec<(usize, Shape)> = owed(&job, members.iter())
        .enumerate()
        .filter(|(_, owed)| is_wanted(owed.reason))
        .map(|(number, owed)| (number, owed.covered.shape))
        .collect();
    if wanted.is_empty() {
        return None;
    }
    let (number, covered) = wanted.swap_remove(random.below(wanted.len()));
    let (member, images) = (0..TRIES).find_map(|_| breaking(random, &covered, rules))?;
    let chosen = Cover {
        member: members.len(),
        images,
    };
    members.push(member);
    Some(pair_with(&job, members, number, chosen))
}

fn random_job(random: &mut Random, version: Version, variables: usize) -> Job {
    let transitions = 1 + random.below(2);
    let shapes = 1 + random.below(4);
    Job {
        version,
        variables: variables as u64,
        states: 3,
        start: START,
        transitions: (0..transitions)
            .map(|_| Transition {
                from: COVERED,
                operation: random_operation(random, version, variables),
                to: COVERED,
            })
            .collect(),
        forbidden: (0..shapes)
            .map(|_| many_cells(random, version, variables).located(COVERED))
            .collect(),
    }
}

fn many_cells(random: &mut Random, version: Version, variables: usize) -> Codes {
    let cells = mostly_many(random, MOST_CELLS as usize);
    let mut codes = Codes::random(random, variables, cells);
    if version == Version::Two {
        codes.facts = random_facts(random, cells);
    }
    codes
}

/// A number up to a bound, the larger of two.
fn mostly_many(random: &mut Random, most: usize) -> usize {
    random.below(most + 1).max(random.below(most + 1))
}

/// A member in which every other variable stands nowhere, so that it has many predecessors.
fn whole(random: &mut Random, version: Version, variables: usize) -> Located {
    let mut whole = many_cells(random, version, variables);
    for place in &mut whole.variables {
        if random.once_in(2) {
            *place = 0;
        }
    }
    whole.located(COVERED)
}

/// A member and its images that break just these rules, if they happen to: a part of what is covered,
/// with one or two changes for each rule. Where paths are to meet, those of the part may do so.
fn breaking(random: &mut Random, covered: &Shape, rules: &[Rule]) -> Option<(Located, Vec<usize>)> {
    let count = mostly_many(random, covered.cells().min(MOST_CELLS as usize));
    let mut images = some_numbers(random, covered.cells(), count);
    for _ in 0..changes(random, rules, Rule::Image) {
        repeat_an_image(random, &mut images);
    }
    let mut part = Codes::of(covered).part(random, &images);
    for _ in 0..changes(random, rules, Rule::Variable) {
        part.change_variable(random);
    }
    for _ in 0..changes(random, rules, Rule::Link) {
        part.change_link(random);
    }
    for _ in 0..changes(random, rules, Rule::Fact) {
        part.add_fact(random);
    }
    let state = match rules.contains(&Rule::State) {
        true => OTHER,
        false => COVERED,
    };
    let member = part.located(state);
    let map = Map {
        shape: &member.shape,
        other: covered,
        images: &images,
    };
    let is_as_chosen =
        |&rule: &Rule| rule == Rule::State || rules.contains(&rule) == map.lowest(rule).is_some();
    let is_found = Rule::ALL.iter().all(is_as_chosen);
    is_found.then_some((member, images))
}

/// How many changes are made for a rule.
fn changes(random: &mut Random, rules: &[Rule], rule: Rule) -> usize {
    match rules.contains(&rule) {
        true => 1 + random.below(2),
        false => 0,
    }
}

/// Gives a cell the image of the one below it, or of any, if there are cells.
fn repeat_an_image(random: &mut Random, images: &mut [usize]) {
    if !images.is_empty() {
        let cell = some_index(random, images.len());
        let any = random.below(images.len());
        images[cell] = images[random.pick(&[cell.saturating_sub(1), any])];
    }
}

#[cfg(test)]
mod tests {
    use std::collections::BTreeSet;

    use super::*;
    use crate::reference::checker::check;
    use crate::reference::cover::{cover_at, CoverRead};
    use crate::reference::facts::{closed, Fact};
    use crate::verdict::{Refusal, Verdict};

    /// How often every choice of rules comes up, for a forbidden shape and for a predecessor.
    const ROUNDS: usize = 12;

    /// The covers that are refused, each with its refusal.
    fn refused(version: Version) -> Vec<(CoverRead, Refusal)> {
        let mut random = Random::new(0x15_5eed);
        let (firsts, choices) = choices_of(version);
        let rounds = if version == Version::One { ROUNDS } else { 3 };
        let turns = 0..rounds * 2 * firsts * choices;
        let pairs = turns.map(|turn| broken(&mut random, version, turn));
        let refused =
            pairs.filter_map(
                |Pair { job, certificate }| match check(&job, &certificate) {
                    Verdict::Accepted(_) => None,
                    Verdict::Refused(refusal) => {
                        let job = Job::read(&job).expect("the job reads");
                        let cover = cover_at(&job, &certificate, refusal.place);
                        Some((cover.expect("a cover is refused"), refusal))
                    }
                },
            );
        refused.collect()
    }

    #[test]
    fn every_choice_of_rules() {
        for (version, expected) in [(Version::One, 31), (Version::Two, 63)] {
            let mut seen = BTreeSet::new();
            for (cover, _) in refused(version) {
                let breaks = |rule: Rule| match rule {
                    Rule::State => cover.member.state != cover.owed.covered.state,
                    _ => cover.map().lowest(rule).is_some(),
                };
                let of_predecessor = matches!(cover.owed.reason, Reason::Before { .. });
                seen.insert((of_predecessor, Rule::ALL.map(breaks)));
            }
            assert_eq!(seen.len(), 2 * expected);
        }
    }

    #[test]
    fn names_are_low_and_high_and_shapes_large() {
        let refused = refused(Version::One);
        for (rule, lowest, highest) in [
            (Rule::State, 0, 0),
            (Rule::Image, 0, 10),
            (Rule::Variable, 1, 8),
            (Rule::Link, 0, 11),
            (Rule::Path, 1, 10),
        ] {
            let of_rule = refused.iter().filter_map(|(cover, refusal)| {
                let broken = refusal.broken.filter(|broken| broken.rule == rule)?;
                Some((broken.name, cover.owed.covered.shape.cells()))
            });
            let (names, cells): (BTreeSet<u8>, BTreeSet<usize>) = of_rule.unzip();
            let ends = (names.first(), names.last(), cells.last());
            assert_eq!(ends, (Some(&lowest), Some(&highest), Some(&14)), "{rule:?}");
        }
    }

    /// Whoever judges cell by cell would name the later rule here.
    #[test]
    fn later_rules_are_broken_at_lower_cells() {
        let refused = refused(Version::One);
        for (first, later) in [
            (Rule::Image, Rule::Link),
            (Rule::Image, Rule::Path),
            (Rule::Link, Rule::Path),
        ] {
            let is_lower = |(cover, refusal): &&(CoverRead, Refusal)| {
                let broken = refusal.broken.filter(|broken| broken.rule == first);
                let lowest = cover.map().lowest(later);
                broken.is_some_and(|broken| lowest.is_some_and(|cell| cell < broken.name.into()))
            };
            let count = refused.iter().filter(is_lower).count();
            assert!(count > 10, "{first:?} and {later:?}: only {count}");
        }
    }

    /// As in 5 7 7 5: the first image that is met again isn't that of the cell to be named.
    #[test]
    fn images_are_used_twice_within_others() {
        let is_within = |(cover, refusal): &&(CoverRead, Refusal)| {
            let images = &cover.cover.images;
            let again = (0..images.len()).find(|&cell| images[..cell].contains(&images[cell]));
            let named = refusal.broken.filter(|broken| broken.rule == Rule::Image);
            let named = named.map(|broken| images[usize::from(broken.name)]);
            named.is_some() && named != again.map(|cell| images[cell])
        };
        let count = refused(Version::One).iter().filter(is_within).count();
        assert!(count > 5, "only {count}");
    }

    /// A fact of equality, listed behind all of order, names a lower cell than these in many.
    #[test]
    fn missing_facts_are_low_and_high_and_out_of_order() {
        let mut names = BTreeSet::new();
        let mut out_of_order = 0;
        for (cover, refusal) in refused(Version::Two) {
            let Some(broken) = refusal.broken.filter(|broken| broken.rule == Rule::Fact) else {
                continue;
            };
            let told = closed(&cover.owed.covered.shape.facts);
            let image = |fact: &Fact| fact.renamed(|cell| cover.cover.images[cell]);
            let mut listed = cover.member.shape.facts.iter();
            let first = listed.find(|fact| !told.contains(&image(fact)));
            let first = first.expect("a fact is missing").i;
            out_of_order += usize::from(first != broken.name.into());
            names.insert(broken.name);
        }
        assert_eq!(names.first(), Some(&0));
        assert!(names.last() > Some(&9), "{names:?}");
        assert!(out_of_order > 3, "only {out_of_order}");
    }
}
