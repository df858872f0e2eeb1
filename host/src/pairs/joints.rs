//! Random pairs of pairs to join. The second is closed backwards first; what it owes is forbidden by the
//! first at the hand-over, and then that is closed. Or one thing of this is done otherwise.

use super::accepted::{random_operation, random_shape, up_to};
use super::facts::{in_order, random_fact};
use super::valued::{self, closed_members, safe_start};
use super::{Draft, Pair};
use crate::random::Random;
use crate::reference::certificate::{Certificate, Cover};
use crate::reference::checker::empty_heap_satisfies;
use crate::reference::cover::{owed, Reason};
use crate::reference::facts::closed;
use crate::reference::heap::{Heap, Place};
use crate::reference::job::{Job, Located, Transition, MOST_FORBIDDEN, MOST_VARIABLES};
use crate::reference::operation::{Operation, NEW};
use crate::reference::shape::{Shape, MOST_CELLS};
use crate::reference::version::Version;
use crate::verdict::Files;

/// Two pairs, and the state of the first at which they are joined.
#[derive(Clone, Debug, PartialEq, Eq)]
pub struct Joint {
    pub first: Pair,
    pub second: Pair,
    pub state: u32,
}

impl Joint {
    pub fn files(&self) -> [Files<'_>; 2] {
        [self.first.files(), self.second.files()]
    }
}

/// What is done otherwise than it should be; some of it changes no verdict.
#[derive(Clone, Copy, PartialEq, Eq)]
enum Twist {
    Nothing,
    /// A shape is listed twice.
    ListedTwice,
    /// Two members of the second at its start are equal.
    OwedTwice,
    /// A shape isn't listed.
    Unlisted,
    /// It is listed at another state.
    Elsewhere,
    /// It is listed with another place, link or number of cells.
    OtherPlace,
    /// It is listed with other facts.
    OtherFacts,
    /// It is listed with its facts in another order, which no job may have.
    OtherOrder,
    /// The first goes on from the hand-over, to any state.
    Leaves,
    /// The same to the hand-over itself and to no other state.
    LeavesToItself,
    /// The second has another number of variables.
    OtherVariables,
    /// The hand-over is the first's own start.
    OwnStart,
}

use Twist::*;

/// The right one more often than each of the others.
const TWISTS: [Twist; 15] = [
    Nothing,
    Nothing,
    Nothing,
    Nothing,
    ListedTwice,
    OwedTwice,
    Unlisted,
    Elsewhere,
    OtherPlace,
    OtherFacts,
    OtherOrder,
    Leaves,
    LeavesToItself,
    OtherVariables,
    OwnStart,
];

/// The most states, transitions and forbidden shapes of a job beside what is owed.
const STATES: usize = 4;
const TRANSITIONS: usize = 6;
const FORBIDDEN: usize = 3;

/// The most members that not every heap satisfies, and covers.
const PARTICULAR: usize = 8;
const COVERS: usize = 80;

/// Values that are written are below this.
const VALUES: usize = 3;

/// So many first jobs are tried for a second one.
const TRIES: usize = 8;

/// Two pairs, each of which is accepted, but for 8 in the second. One in eight is twisted twice.
pub fn joint(random: &mut Random) -> Joint {
    loop {
        let mut twists = vec![random.pick(&TWISTS)];
        if random.once_in(8) {
            twists.push(random.pick(&TWISTS));
        }
        let variables = 1 + up_to(random, &[0, 1, 2], MOST_VARIABLES as usize - 1);
        let of_second = match twists.contains(&OtherVariables) {
            true => 1 + random.below(MOST_VARIABLES as usize),
            false => variables,
        };
        let versions = [Version::One, Version::Two];
        let versions = [random.pick(&versions), random.pick(&versions)];
        let walks = match random.once_in(2) && of_second == variables {
            true => walks(random, versions, variables),
            false => [Vec::new(), Vec::new()],
        };
        let making = Making::new(random, versions[1], of_second);
        let Some(second) = making.second(&twists, &walks[1]) else {
            continue;
        };
        for _ in 0..TRIES {
            let owed = shapes_at_start(&second);
            let making = Making::new(random, versions[0], variables);
            if let Some((first, state)) = making.first(&twists, owed, &walks[0]) {
                return Joint {
                    first: first.pair(),
                    second: second.pair(),
                    state,
                };
            }
        }
    }
}

/// Operations that can be done one after the other from the empty heap on, so that runs come from the
/// first job into the second.
fn walks(random: &mut Random, versions: [Version; 2], variables: usize) -> [Vec<Operation>; 2] {
    let mut heap = Heap::empty(variables);
    versions.map(|version| {
        let mut walk = Vec::new();
        while walk.is_empty() || !random.once_in(4) {
            let operation = random_operation(random, version, variables);
            let choice = match operation.kind {
                NEW => heap.links.keys().max().map_or(0, |last| last + 1),
                _ => random.below(VALUES),
            };
            if let Some(after) = heap.after(operation, choice) {
                heap = after;
                walk.push(operation);
            }
        }
        walk
    })
}

/// The shapes of the members at the start.
fn shapes_at_start(second: &Draft) -> Vec<Shape> {
    let members = second.certificate.members.iter();
    let at_start = members.filter(|member| member.state == second.job.start);
    at_start.map(|member| member.shape.clone()).collect()
}

/// Makes a pair of a version, with so many variables.
struct Making<'a> {
    random: &'a mut Random,
    version: Version,
    variables: usize,
}

impl Making<'_> {
    fn new(random: &mut Random, version: Version, variables: usize) -> Making<'_> {
        Making {
            random,
            version,
            variables,
        }
    }

    /// A second pair, whose job does the walk, and may come back to its start; without one its job starts
    /// anywhere.
    fn second(mut self, twists: &[Twist], walk: &[Operation]) -> Option<Draft> {
        let states = self.states(walk);
        let any: Vec<u64> = (0..states).collect();
        let (start, mut transitions) = match walk {
            [] => (self.random.pick(&any), self.transitions(&any, states)),
            _ => (0, chain(walk)),
        };
        if !walk.is_empty() && self.random.once_in(2) {
            transitions.push(self.transition(states - 1, start));
        }
        let job = Job {
            start,
            transitions,
            forbidden: self.forbidden(states, 1),
            ..self.job(states)
        };
        let mut second = self.closed(job)?;
        if twists.contains(&OwedTwice) {
            repeat_owed(self.random, &mut second);
        }
        Some(second)
    }

    /// A first pair that forbids these shapes at its hand-over, which comes with it. Its job does the
    /// walk, if there is one.
    fn first(
        mut self,
        twists: &[Twist],
        owed: Vec<Shape>,
        walk: &[Operation],
    ) -> Option<(Draft, u32)> {
        let states = self.states(walk);
        let (hand_over, mut transitions) = match walk {
            [] => {
                let hand_over = self.random.below(states as usize) as u64;
                let others: Vec<u64> = (0..states).filter(|&state| state != hand_over).collect();
                (hand_over, self.transitions(&others, states))
            }
            _ => (states - 1, chain(walk)),
        };
        if twists.contains(&Leaves) {
            let to = self.random.below(states as usize) as u64;
            transitions.push(self.transition(hand_over, to));
        }
        if twists.contains(&LeavesToItself) {
            transitions.push(self.transition(hand_over, hand_over));
        }
        let listed = owed.into_iter().map(|shape| Located {
            state: hand_over,
            shape: self.of_version(shape),
        });
        let mut listed: Vec<Located> = listed.collect();
        for &twist in twists {
            self.twist(twist, &mut listed, states);
        }
        let fewest = usize::from(listed.is_empty());
        listed.extend(self.forbidden(states, fewest));
        self.random.shuffle(&mut listed);
        if listed.len() > MOST_FORBIDDEN as usize {
            return None;
        }
        let job = Job {
            transitions,
            forbidden: listed,
            ..self.job(states)
        };
        let mut first = self.closed(job)?;
        let members = &first.certificate.members;
        first.job.start = match walk {
            _ if twists.contains(&OwnStart) => hand_over,
            [] => safe_start(self.random, &first.job, members)?,
            _ => 0,
        };
        if twists.contains(&OtherOrder) {
            let with_facts = first.job.forbidden.iter_mut();
            let facts = with_facts.map(|bad| &mut bad.shape.facts);
            for facts in facts.filter(|facts| facts.len() > 1).take(1) {
                facts.swap(0, 1);
            }
        }
        let mut at_start = members.iter().filter(|of| of.state == first.job.start);
        let is_satisfied = at_start.any(|member| empty_heap_satisfies(&member.shape));
        (!is_satisfied).then_some((first, hand_over as u32))
    }

    /// How many states a job has that does a walk, or anything.
    fn states(&mut self, walk: &[Operation]) -> u64 {
        match walk {
            [] => 1 + self.random.below(STATES) as u64,
            _ => 1 + walk.len() as u64,
        }
    }

    /// A job that does nothing and forbids nothing.
    fn job(&self, states: u64) -> Job {
        Job {
            version: self.version,
            variables: self.variables as u64,
            states,
            start: 0,
            transitions: Vec::new(),
            forbidden: Vec::new(),
        }
    }

    /// The job with a certificate that is accepted, but perhaps for 8.
    fn closed(&mut self, job: Job) -> Option<Draft> {
        let (members, covers) = closed_members(self.random, &job, PARTICULAR, COVERS)?;
        let certificate = Certificate {
            version: job.version,
            members,
            covers,
        };
        Some(Draft { job, certificate })
    }

    fn transitions(&mut self, from: &[u64], states: u64) -> Vec<Transition> {
        let count = self.random.below(TRANSITIONS + 1);
        let count = if from.is_empty() { 0 } else { count };
        let mut transition = |_| {
            let from = self.random.pick(from);
            let to = self.random.below(states as usize) as u64;
            self.transition(from, to)
        };
        (0..count).map(&mut transition).collect()
    }

    fn transition(&mut self, from: u64, to: u64) -> Transition {
        Transition {
            from,
            operation: random_operation(self.random, self.version, self.variables),
            to,
        }
    }

    /// Shapes that are forbidden anywhere, at least so many.
    fn forbidden(&mut self, states: u64, fewest: usize) -> Vec<Located> {
        let count = fewest + self.random.below(FORBIDDEN + 1 - fewest);
        let mut located = |_| Located {
            state: self.random.below(states as usize) as u64,
            shape: self.shape(),
        };
        (0..count).map(&mut located).collect()
    }

    fn shape(&mut self) -> Shape {
        match self.version {
            Version::One => random_shape(self.random, self.variables),
            Version::Two => valued::random_shape(self.random, self.variables),
        }
    }

    /// The shape as far as a file of the version, and of so many variables, may list it.
    fn of_version(&self, mut shape: Shape) -> Shape {
        shape.variables.resize(self.variables, None);
        match self.version {
            Version::One => shape.with_facts(Vec::new()),
            Version::Two => shape,
        }
    }

    /// Lists one of the shapes otherwise.
    fn twist(&mut self, twist: Twist, listed: &mut Vec<Located>, states: u64) {
        if listed.is_empty() {
            return;
        }
        let number = self.random.below(listed.len());
        match twist {
            ListedTwice => listed.push(listed[number].clone()),
            Unlisted => drop(listed.remove(number)),
            Elsewhere => listed[number].state = self.random.below(states as usize) as u64,
            OtherPlace => change_place(self.random, &mut listed[number].shape),
            OtherFacts if self.version == Version::Two => {
                change_facts(self.random, &mut listed[number].shape);
            }
            _ => {}
        }
    }
}

/// The transitions of a walk, from state 0 on.
fn chain(walk: &[Operation]) -> Vec<Transition> {
    let steps = (0..).zip(walk);
    let transition = |(from, &operation)| Transition {
        from,
        operation,
        to: from + 1,
    };
    steps.map(transition).collect()
}

/// Another place of a variable or a link, or a cell more.
fn change_place(random: &mut Random, shape: &mut Shape) {
    let cells = shape.cells();
    if random.once_in(6) && (cells as u64) < MOST_CELLS {
        return shape.links.push(None);
    }
    let places = shape.variables.iter_mut().chain(&mut shape.links);
    let mut places: Vec<&mut Option<Place>> = places.collect();
    let number = random.below(places.len());
    *places[number] = Place::of_code(random.below(3 + cells) as u64);
}

/// All that follows from the facts, one fact more, one less, or the last of another cell.
fn change_facts(random: &mut Random, shape: &mut Shape) {
    let cells = shape.cells();
    let mut facts = std::mem::take(&mut shape.facts);
    match random.below(4) {
        0 => facts = closed(&facts),
        1 if cells > 0 => facts.push(random_fact(random, cells)),
        2 => facts
            .iter_mut()
            .rev()
            .take(1)
            .for_each(|last| last.j = random.below(cells)),
        _ if !facts.is_empty() => drop(facts.remove(random.below(facts.len()))),
        _ => {}
    }
    shape.facts = in_order(facts);
}

/// A member at the start comes again as the last one, with its covers.
fn repeat_owed(random: &mut Random, second: &mut Draft) {
    let Draft { job, certificate } = second;
    let members = certificate.members.iter().enumerate();
    let at_start = members.filter(|(_, member)| member.state == job.start);
    let numbers: Vec<usize> = at_start.map(|(number, _)| number).collect();
    if numbers.is_empty() {
        return;
    }
    let number = random.pick(&numbers);
    let all = owed(job, certificate.members.iter()).zip(&certificate.covers);
    let of_member = all.filter(|(owed, _)| match owed.reason {
        Reason::Before { member, .. } => member == number,
        Reason::Forbidden(_) => false,
    });
    let covers: Vec<Cover> = of_member.map(|(_, cover)| cover.clone()).collect();
    let member = certificate.members[number].clone();
    certificate.members.push(member);
    certificate.covers.extend(covers);
}

/// The pair that forbids these shapes at state 0, and does nothing from the start, 0 or 1.
pub fn only_forbidding(version: Version, shapes: Vec<Shape>, start: u64) -> Pair {
    let cover = |(member, shape): (usize, &Shape)| Cover {
        member,
        images: (0..shape.cells()).collect(),
    };
    let covers = shapes.iter().enumerate().map(cover).collect();
    let located = |shape| Located { state: 0, shape };
    let forbidden: Vec<Located> = shapes.into_iter().map(located).collect();
    let job = Job {
        version,
        variables: forbidden[0].shape.variables.len() as u64,
        states: 2,
        start,
        transitions: Vec::new(),
        forbidden: forbidden.clone(),
    };
    Pair::of(&job, forbidden, covers)
}
