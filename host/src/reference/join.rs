//! Two jobs as one: "a hand-over state of the first, which is also the start of the second; otherwise
//! their states are apart". The verdict, the joined program, and its runs over small heaps.

use std::collections::{HashSet, VecDeque};

use super::checker::{accept, Start};
use super::embedding::embeds_somehow;
use super::heap::Heap;
use super::job::{Job, Located, Transition};
use super::operation::{LARGER, READ, SMALLER};
use super::shape::Shape;
use super::version::Version;
use crate::verdict::{Files, JoinVerdict, Mismatch};

/// The verdict on two pairs joined at a state of the first.
pub fn join(first: Files, second: Files, state: u32) -> JoinVerdict {
    let first = match accept(first.0, first.1, Start::Empty) {
        Ok(first) => first,
        Err(refusal) => return JoinVerdict::PairRefused(1, refusal),
    };
    let second = match accept(second.0, second.1, Start::HandedOver) {
        Ok(second) => second,
        Err(refusal) => return JoinVerdict::PairRefused(2, refusal),
    };
    let members: Vec<Located> = second.members.into_iter().map(|of| of.located).collect();
    match mismatch(&first.job, &second.job, &members, state.into()) {
        Some(mismatch) => JoinVerdict::Mismatched(mismatch),
        None => JoinVerdict::Joined(first.counts, second.counts),
    }
}

/// Why two jobs, the second with these members, can't be joined.
fn mismatch(first: &Job, second: &Job, members: &[Located], state: u64) -> Option<Mismatch> {
    if state >= first.states {
        return Some(Mismatch::State);
    }
    if first.variables != second.variables {
        return Some(Mismatch::Variables);
    }
    if first.transitions.iter().any(|step| step.from == state) {
        return Some(Mismatch::Transition);
    }
    match unlisted(first, second, members, state).is_empty() {
        true => None,
        false => Some(Mismatch::Owed),
    }
}

/// The shapes that the second owes, those of its members at its start, and that the first doesn't forbid at
/// the hand-over.
pub fn unlisted<'a>(
    first: &Job,
    second: &Job,
    members: &'a [Located],
    state: u64,
) -> Vec<&'a Shape> {
    let is_listed = |owed: &Shape| {
        let mut listed = first.forbidden.iter().filter(|bad| bad.state == state);
        listed.any(|bad| numbers(&bad.shape) == numbers(owed))
    };
    let owed = members.iter().filter(|member| member.state == second.start);
    let shapes = owed.map(|member| &member.shape);
    shapes.filter(|shape| !is_listed(shape)).collect()
}

/// "Number for number (version 1 as with fact count 0)".
fn numbers(shape: &Shape) -> Vec<u64> {
    shape.numbers(Version::Two)
}

/// The joined program as a job, which may have more states and transitions than a file. The states of the
/// second behind those of the first, but for its start, which is the hand-over.
pub fn joined(first: &Job, second: &Job, hand_over: u64) -> Job {
    let state = |of_second: u64| match of_second == second.start {
        true => hand_over,
        false => first.states + of_second,
    };
    let transitions = second.transitions.iter().map(|step| Transition {
        from: state(step.from),
        operation: step.operation,
        to: state(step.to),
    });
    let forbidden = second.forbidden.iter().map(|bad| Located {
        state: state(bad.state),
        shape: bad.shape.clone(),
    });
    let elsewhere = first.forbidden.iter().filter(|bad| bad.state != hand_over);
    Job {
        version: Version::Two,
        variables: first.variables,
        states: first.states + second.states,
        start: first.start,
        transitions: first
            .transitions
            .iter()
            .copied()
            .chain(transitions)
            .collect(),
        forbidden: elsewhere.cloned().chain(forbidden).collect(),
    }
}

/// Runs over small heaps: so many cells, values below so many, and so many heaps in all.
const CELLS: usize = 3;
const VALUES: usize = 3;
const HEAPS: usize = 400;

/// What runs from the empty heap come to, over small heaps.
pub struct Runs {
    /// The states that they reach.
    pub states: HashSet<u64>,
    /// A state and a heap that satisfies a shape forbidden there.
    pub forbidden: Option<(u64, Heap)>,
}

/// Runs a job over small heaps, until one is met that is forbidden.
pub fn run(job: &Job) -> Runs {
    let begin = (job.start, Heap::empty(job.variables as usize));
    let mut met = HashSet::from([begin.clone()]);
    let mut open = VecDeque::from([begin]);
    let mut states = HashSet::new();
    while let Some((state, heap)) = open.pop_front() {
        states.insert(state);
        if is_forbidden(job, state, &heap) {
            let forbidden = Some((state, heap));
            return Runs { states, forbidden };
        }
        for step in job.transitions.iter().filter(|step| step.from == state) {
            for after in steps(&heap, step) {
                let next = (step.to, after);
                if met.len() < HEAPS && met.insert(next.clone()) {
                    open.push_back(next);
                }
            }
        }
    }
    let forbidden = None;
    Runs { states, forbidden }
}

fn is_forbidden(job: &Job, state: u64, heap: &Heap) -> bool {
    let whole = Shape::of_heap(heap);
    let mut here = job.forbidden.iter().filter(|bad| bad.state == state);
    here.any(|bad| bad.shape.cells() <= whole.cells() && embeds_somehow(&bad.shape, &whole))
}

/// The small heaps after a transition: by every value where one is left open; which cell is new makes
/// no difference to a shape.
fn steps(heap: &Heap, step: &Transition) -> Vec<Heap> {
    let unused = (0..).find(|cell| !heap.links.contains_key(cell));
    let choices: Vec<usize> = match step.operation.kind {
        LARGER | SMALLER | READ => (0..VALUES).collect(),
        _ => unused.into_iter().collect(),
    };
    let after = choices.into_iter();
    let after = after.filter_map(|choice| heap.after(step.operation, choice));
    after.filter(|after| after.links.len() <= CELLS).collect()
}

#[cfg(test)]
mod tests {
    use super::*;
    use crate::verdict::{Broken, Counts, Refusal};

    /// State 0, x := null, state 1, where x at * is forbidden; and its certificate.
    const LOAD: [u8; 14] = [1, 1, 2, 0, 1, 0, 3, 1, 0, 1, 1, 1, 0, 2];
    const LOADED: [u8; 6] = [1, 1, 1, 0, 2, 0];

    /// State 0, x = x, state 1; x at * is forbidden at state 0, and is owed there.
    const EDIT: [u8; 14] = [1, 1, 2, 0, 1, 0, 1, 1, 1, 1, 1, 0, 0, 2];
    const EDITED: [u8; 6] = [1, 1, 0, 0, 2, 0];

    /// State 0, new(x), state 0; x at * is forbidden there, and is owed.
    const RENEW: [u8; 14] = [1, 1, 1, 0, 1, 0, 6, 1, 0, 0, 1, 0, 0, 2];
    const RENEWED: [u8; 6] = [1, 1, 0, 0, 2, 0];

    const FIRST: Files = (&LOAD, &LOADED);
    const SECOND: Files = (&EDIT, &EDITED);

    fn mismatched(mismatch: Mismatch) -> JoinVerdict {
        JoinVerdict::Mismatched(mismatch)
    }

    fn job(bytes: &[u8]) -> Job {
        Job::read(bytes).expect("it is a job")
    }

    #[test]
    fn an_edit_that_relies_on_a_load_is_joined_to_it() {
        let alone = accept(SECOND.0, SECOND.1, Start::Empty);
        assert_eq!(alone.map(|_| ()), Err(Refusal::at(8, 2)));
        let counts = Counts::of_numbers([1, 1, 1, 0]);
        let both = JoinVerdict::Joined(counts, counts);
        assert_eq!(join(FIRST, SECOND, 1), both);
        assert_eq!(both.told(), [1, 1, 1, 0, 1, 1, 1, 0]);
        let runs = run(&joined(&job(FIRST.0), &job(SECOND.0), 1));
        assert_eq!(runs.forbidden, None);
        assert_eq!(runs.states, HashSet::from([0, 1, 3]));
    }

    /// A state, a number of variables, a transition and an owed shape that are wrong, alone and all at
    /// once.
    #[test]
    fn mismatches_are_tried_in_order() {
        let wide: Files = (&[1, 2, 1, 0, 0, 1, 0, 0, 0, 2], &[1, 1, 0, 0, 0, 2, 0]);
        for state in [2, 63, 257, 65_537, u32::MAX] {
            for second in [SECOND, wide] {
                assert_eq!(join(FIRST, second, state), mismatched(Mismatch::State));
            }
        }
        for state in [0, 1] {
            assert_eq!(join(FIRST, wide, state), mismatched(Mismatch::Variables));
        }
        assert_eq!(join(FIRST, SECOND, 0), mismatched(Mismatch::Transition));
        // It is forbidden at another state.
        let elsewhere: Files = (&[1, 1, 2, 1, 0, 1, 0, 0, 2], &[1, 1, 0, 0, 2, 0]);
        assert_eq!(join(elsewhere, SECOND, 1), mismatched(Mismatch::Owed));
        assert_eq!(join(elsewhere, SECOND, 0).number(), 0);
    }

    #[test]
    fn refusals_name_their_pair() {
        let broken = Broken::of_numbers(3, 1).expect("there is such a rule");
        let of_pair = |pair| JoinVerdict::PairRefused(pair, Refusal::of_cover(5, broken));
        let first: Files = (FIRST.0, &[1, 1, 1, 0, 1, 0]);
        let second: Files = (SECOND.0, &[1, 1, 0, 0, 1, 0]);
        assert_eq!(join(first, second, 9), of_pair(1));
        assert_eq!(join(FIRST, second, 9), of_pair(2));
        assert_eq!(of_pair(2).told(), [2, 5, 3, 1, 0, 0, 0, 0]);
        // 8 is the first's alone.
        let from_empty = JoinVerdict::PairRefused(1, Refusal::at(8, 2));
        assert_eq!(join(SECOND, SECOND, 0), from_empty);
    }

    #[test]
    fn shapes_of_both_versions_are_compared_as_numbers() {
        let job_up = |bytes: &[u8]| [&[2], &bytes[1..], &[0]].concat();
        let up = |bytes: &[u8]| [&[2], &bytes[1..5], &[0], &bytes[5..]].concat();
        let (load, loaded) = (job_up(&LOAD), up(&LOADED));
        let (edit, edited) = (job_up(&EDIT), up(&EDITED));
        for first in [FIRST, (&load, &loaded)] {
            for second in [SECOND, (&edit, &edited)] {
                assert_eq!(join(first, second, 1).number(), 0);
            }
        }
        // One cell that is equal to itself, below itself, or both, from which follows that it is equal.
        let facts: [&[u8]; 4] = [&[], &[0, 0, 0], &[1, 0, 0], &[0, 0, 0, 1, 0, 0]];
        for (listed, owed) in facts.iter().flat_map(|of| facts.map(|by| (*of, by))) {
            let located = |facts: &[u8]| [&[0, 1, 0, 0, facts.len() as u8 / 3], facts].concat();
            let pair = |facts: &[u8], states: u8, start: u8| {
                let job = [vec![2, 1, states, start, 0, 1], located(facts)].concat();
                (job, [vec![2, 1], located(facts), vec![0, 0]].concat())
            };
            let (first, second) = (pair(listed, 2, 1), pair(owed, 1, 0));
            let verdict = join((&first.0, &first.1), (&second.0, &second.1), 0);
            let number = if listed == owed { 0 } else { 27 };
            assert_eq!(verdict.number(), number, "{listed:?} {owed:?}");
        }
    }

    /// State 0, x := null, state 1, null = null, state 2, where x at a cell is forbidden; x at * is at
    /// state 1. The second comes back to state 1 with x at a cell.
    #[test]
    fn behind_a_transition_from_the_hand_over_a_run_is_wrong() {
        let first = [
            1, 1, 3, 0, 2, 0, 3, 1, 0, 1, 1, 1, 0, 0, 2, 2, 2, 1, 3, 0, 1, 0, 2,
        ];
        let members = [1, 3, 2, 1, 3, 0, 1, 1, 3, 0, 1, 0, 2];
        let certificate = [&members[..], &[0, 0, 2, 1, 0]].concat();
        let accepted = accept(&first, &certificate, Start::Empty);
        assert_eq!(accepted.err(), None);
        let verdict = join((&first, &certificate), (&RENEW, &RENEWED), 1);
        assert_eq!(verdict, mismatched(Mismatch::Transition));
        let met = run(&joined(&job(&first), &job(&RENEW), 1)).forbidden;
        let (state, heap) = met.expect("the first goes on from there");
        assert_eq!((state, heap.links.len()), (2, 1));
    }

    /// State 0, new(x), state 1; the second forbids a cell linked to *, which the first doesn't.
    #[test]
    fn where_an_owed_shape_is_not_listed_a_run_is_wrong() {
        let first = [1, 1, 2, 0, 1, 0, 6, 1, 0, 1, 1, 0, 0, 1];
        let second = [1, 1, 1, 0, 0, 1, 0, 1, 3, 2];
        let certificates = ([1, 1, 0, 0, 1, 0], [1, 1, 0, 1, 3, 2, 0, 0]);
        let verdict = join((&first, &certificates.0), (&second, &certificates.1), 1);
        assert_eq!(verdict, mismatched(Mismatch::Owed));
        let met = run(&joined(&job(&first), &job(&second), 1)).forbidden;
        let (state, heap) = met.expect("a new cell's link dangles");
        assert_eq!((state, heap.links.len()), (1, 1));
    }

    /// The first forbids x at a cell at the hand-over too, where the second comes back with it.
    #[test]
    fn shapes_of_the_first_at_the_hand_over_are_not_claimed() {
        let first = [1, 1, 2, 0, 1, 0, 3, 1, 0, 1, 2, 1, 1, 3, 0, 1, 0, 2];
        let certificate = [1, 2, 1, 1, 3, 0, 1, 0, 2, 0, 0, 1];
        let verdict = join((&first, &certificate), (&RENEW, &RENEWED), 1);
        assert_eq!(verdict.told(), [2, 2, 2, 0, 1, 1, 1, 0]);
        let mut program = joined(&job(&first), &job(&RENEW), 1);
        assert_eq!(run(&program).forbidden, None);
        program.forbidden.extend(job(&first).forbidden);
        assert!(run(&program).forbidden.is_some());
    }
}
