//! Random jobs with certificates that are accepted.

use super::Pair;
use crate::random::Random;
use crate::reference::checker::MOST_BYTES;
use crate::reference::job::{
    self, Job, Transition, MOST_FORBIDDEN, MOST_STATES, MOST_TRANSITIONS, MOST_VARIABLES,
};
use crate::reference::operation::{operation, Operation};
use crate::reference::shape as reference;
use crate::reference::version::Version;
use crate::search::before::{each_before, forbidden};
use crate::search::covers::certificate_of;
use crate::search::generalise::simplifications;
use crate::search::images::find_images;
use crate::search::shape::{Located, Shape};

/// How large a pair is wanted.
struct Size {
    /// Bounds of the number of transitions, one of which is drawn.
    transitions: &'static [usize],
    fewest_covers: usize,
    most_covers: usize,
}

const SMALL: Size = Size {
    transitions: &[0, 1, 3],
    fewest_covers: 0,
    most_covers: 10,
};

const MEDIUM: Size = Size {
    transitions: &[3, 8, 16],
    fewest_covers: 10,
    most_covers: 100,
};

const LARGE: Size = Size {
    transitions: &[30, 60],
    fewest_covers: 200,
    most_covers: 4_000,
};

/// The most members that not every heap satisfies. With one more for each state they are few
/// enough.
const MOST_PARTICULAR: usize = 100;

/// A pair that is accepted. Jobs are tried until one has a certificate of the size drawn.
pub fn accepted(random: &mut Random) -> Pair {
    let size = match random.below(30) {
        0 => LARGE,
        1..=15 => MEDIUM,
        _ => SMALL,
    };
    loop {
        if let Some(pair) = accepted_of(random, &size) {
            return pair;
        }
    }
}

fn accepted_of(random: &mut Random, size: &Size) -> Option<Pair> {
    let mut job = random_job(random, size);
    let particular = 1 + random.below(size.most_covers.min(MOST_PARTICULAR));
    let members = closed_members(random, &job, particular, size.most_covers)?;
    job.start = safe_start(random, &job, &members)?;
    let certificate = certificate_of(&job, &members);
    let bytes = certificate.bytes();
    let fits = certificate.covers.len() >= size.fewest_covers && bytes.len() <= MOST_BYTES;
    fits.then(|| Pair {
        job: job.bytes(),
        certificate: bytes,
    })
}

/// Now and then with many states, transitions or cells.
fn random_job(random: &mut Random, size: &Size) -> Job {
    let variables = 1 + up_to(random, &[0, 1, 2, 3], MOST_VARIABLES as usize - 1);
    let states = 1 + up_to(random, &[0, 1, 2, 4], MOST_STATES as usize - 1);
    let transitions = up_to(random, size.transitions, MOST_TRANSITIONS as usize);
    let bads = 1 + up_to(random, &[0, 0, 2], MOST_FORBIDDEN as usize - 1);
    // Mostly no transition leaves the last state, so that it can be the start.
    let left = states - usize::from(states > 1 && !random.once_in(4));
    Job {
        version: Version::One,
        variables: variables as u64,
        states: states as u64,
        start: 0,
        transitions: (0..transitions)
            .map(|_| random_transition(random, variables, left, states))
            .collect(),
        forbidden: (0..bads)
            .map(|_| job::Located {
                state: random.below(states) as u64,
                shape: random_shape(random, variables),
            })
            .collect(),
    }
}

/// A number up to one of the usual bounds, rarely up to the largest.
pub fn up_to(random: &mut Random, usual: &[usize], largest: usize) -> usize {
    let bound = match random.once_in(40) {
        true => largest,
        false => random.pick(usual),
    };
    random.below(bound + 1)
}

fn random_transition(
    random: &mut Random,
    variables: usize,
    left: usize,
    states: usize,
) -> Transition {
    let from = random.below(left) as u64;
    let to = random.below(states) as u64;
    Transition {
        from,
        operation: random_operation(random, Version::One, variables),
        to,
    }
}

pub fn random_operation(random: &mut Random, version: Version, variables: usize) -> Operation {
    loop {
        let kind = 1 + random.below(*version.kinds().end() as usize) as u64;
        let (a, b) = (random.below(variables + 1), random.below(variables + 1));
        if let Some(operation) = operation(kind, a as u64, b as u64, variables as u64) {
            return operation;
        }
    }
}

pub fn random_shape(random: &mut Random, variables: usize) -> reference::Shape {
    let cells = up_to(random, &[0, 1, 2, 4], reference::MOST_CELLS as usize);
    let mut codes = |count: usize| -> Vec<u64> {
        (0..count)
            .map(|_| match random.once_in(3) {
                true => 0,
                false => random.below(3 + cells) as u64,
            })
            .collect()
    };
    reference::Shape::of_codes(&codes(variables), &codes(cells))
}

/// Members closed under predecessors: so many particular ones, made more general by chance, then
/// ones that anything satisfies. Nothing where more covers would be needed.
fn closed_members(
    random: &mut Random,
    job: &Job,
    particular: usize,
    most_covers: usize,
) -> Option<Vec<Located>> {
    let mut members: Vec<Located> = Vec::new();
    let mut covers = 0;
    let mut cover = |members: &mut Vec<Located>, needed: &Located| {
        if !members.iter().any(|member| covered_by(needed, member)) {
            let shape = match members.len() < particular {
                true => more_general(random, needed.shape),
                false => Shape::EMPTY,
            };
            let state = needed.state;
            members.push(Located { state, shape });
        }
        covers += 1;
        (covers <= most_covers).then_some(()).ok_or(())
    };
    for bad in forbidden(job) {
        cover(&mut members, &bad).ok()?;
    }
    let mut next = 0;
    while next < members.len() {
        let member = members[next];
        each_before(job, &member, |_, needed| cover(&mut members, needed)).ok()?;
        next += 1;
    }
    Some(members)
}

fn covered_by(needed: &Located, member: &Located) -> bool {
    member.state == needed.state && find_images(&member.shape, &needed.shape).is_some()
}

/// The shape after some random simplifications, with cells few enough for a file.
fn more_general(random: &mut Random, shape: Shape) -> Shape {
    let mut shape = shape;
    let mut left: usize = random.pick(&[0, 0, 1, 2, 4, 8]);
    while left > 0 || u64::from(shape.places.cells) > reference::MOST_CELLS {
        let simpler = simplifications(&shape);
        if simpler.is_empty() {
            break;
        }
        shape = random.pick(&simpler);
        left = left.saturating_sub(1);
    }
    shape
}

/// A state at which the empty heap satisfies no member.
fn safe_start(random: &mut Random, job: &Job, members: &[Located]) -> Option<u64> {
    let unsafe_at = |state: u64| {
        let satisfied = |member: &Located| {
            u64::from(member.state) == state && member.shape.places.empty_heap_satisfies()
        };
        members.iter().any(satisfied)
    };
    let safe: Vec<u64> = (0..job.states).filter(|&state| !unsafe_at(state)).collect();
    (!safe.is_empty()).then(|| random.pick(&safe))
}
