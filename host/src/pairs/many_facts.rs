//! As many facts as there may be, or nearly: of twelve cells, the first so many of all 288 or those of
//! cells that are all equal, forbidden and covered by a member with as many, one more or one less.

use super::facts::all_facts;
use super::{anything, Pair};
use crate::random::Random;
use crate::reference::certificate::Cover;
use crate::reference::cover::{owed, Reason};
use crate::reference::facts::{Fact, Relation};
use crate::reference::job::{Job, Located, Transition};
use crate::reference::operation::{operation, VALUE_KINDS};
use crate::reference::shape::{Shape, MOST_CELLS};
use crate::reference::version::Version;

/// No shape is at the start.
const START: u64 = 0;
const STATE: u64 = 1;

const CELLS: usize = MOST_CELLS as usize;
const ALL: usize = 2 * CELLS * CELLS;

/// How many facts are listed: about as many as one byte tells, and as there may be.
const COUNTS: [usize; 8] = [126, 127, 128, 129, ALL - 2, ALL - 1, ALL, ALL + 1];

/// The pair of a turn.
pub fn many_facts(random: &mut Random, turn: usize) -> Pair {
    match turn % 4 {
        0 => all_equal(random, turn / 4),
        _ => first_facts(random, turn / 4),
    }
}

/// The first of all facts; one too many is the last again.
fn first_of_all(count: usize) -> Vec<Fact> {
    let mut facts = all_facts(CELLS);
    facts.extend(facts.last().copied());
    facts.truncate(count);
    facts
}

/// Twelve loose cells with these facts.
fn loose(facts: Vec<Fact>) -> Located {
    let shape = Shape::of_codes(&[0, 0], &[0; CELLS]);
    Located {
        state: STATE,
        shape: shape.with_facts(facts),
    }
}

fn job(transitions: Vec<Transition>, forbidden: Located) -> Job {
    Job {
        version: Version::Two,
        variables: 2,
        states: 2,
        start: START,
        transitions,
        forbidden: vec![forbidden],
    }
}

/// Facts that put cells below themselves, so that nothing comes before the member.
fn first_facts(random: &mut Random, turn: usize) -> Pair {
    let count = COUNTS[turn % COUNTS.len()];
    let of_member = count - 1 + random.below(3);
    let member = loose(first_of_all(of_member.min(ALL + 1)));
    let cover = Cover {
        member: 0,
        images: (0..CELLS).collect(),
    };
    let by = transition(turn);
    Pair::of(
        &job(vec![by], loose(first_of_all(count))),
        vec![member],
        vec![cover],
    )
}

/// A transition of each kind on values in turn, with one variable for both operands and with two.
fn transition(turn: usize) -> Transition {
    let kinds: Vec<u64> = VALUE_KINDS.collect();
    let kind = kinds[turn % kinds.len()];
    let mut operands = [(1, 1 + turn as u64 / 6 % 2), (1, 0)].into_iter();
    let operation = operands.find_map(|(a, b)| operation(kind, a, b, 2));
    Transition {
        from: STATE,
        operation: operation.expect("one of them fits the kind"),
        to: STATE,
    }
}

/// All cells equal, which is the most that can be told. What comes before is covered by the whole where
/// all is still told, and now and then where it isn't.
fn all_equal(random: &mut Random, turn: usize) -> Pair {
    let all = all_facts(CELLS).into_iter();
    let equal = all
        .filter(|fact| fact.relation == Relation::Equal)
        .collect();
    let whole = loose(equal);
    let members = vec![whole.clone(), anything(STATE, 2)];
    let job = job(vec![transition(turn)], whole);
    let of_whole = Cover {
        member: 0,
        images: (0..CELLS).collect(),
    };
    let of_anything = Cover {
        member: 1,
        images: Vec::new(),
    };
    let wrong = random.below(64);
    let covers = owed(&job, members.iter()).enumerate();
    let covers = covers.map(|(number, owed)| {
        let told = owed.covered.shape.facts.len() >= CELLS * CELLS;
        match owed.reason {
            Reason::Forbidden(_) => of_whole.clone(),
            Reason::Before { .. } if told || number == wrong => of_whole.clone(),
            Reason::Before { .. } => of_anything.clone(),
        }
    });
    let covers = covers.collect();
    Pair::of(&job, members, covers)
}

#[cfg(test)]
mod tests {
    use std::collections::BTreeMap;

    use super::*;
    use crate::reference::checker::check;
    use crate::verdict::{Broken, Rule, Verdict};

    #[test]
    fn pairs_are_accepted_refused_and_broken() {
        let mut random = Random::new(0x26_5eed);
        let mut numbers = BTreeMap::new();
        for turn in 0..800 {
            let pair = many_facts(&mut random, turn);
            let verdict = check(&pair.job, &pair.certificate);
            if let Verdict::Refused(refusal) = verdict {
                let rule = refusal.broken.map(|Broken { rule, .. }| rule);
                assert_eq!(
                    rule,
                    (refusal.number == 9).then_some(Rule::Fact),
                    "{verdict}"
                );
            }
            *numbers.entry(verdict.number()).or_insert(0) += 1;
        }
        let often = numbers.iter().filter(|(_, &count)| count > 10);
        let often: Vec<u32> = often.map(|(&number, _)| number).collect();
        assert_eq!(often, [0, 4, 7, 9], "{numbers:?}");
    }
}
