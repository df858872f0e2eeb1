//! Two pairs joined, against the checks of both alone.

use std::hint::black_box;

use super::{Cost, Work};
use crate::baseline;
use crate::corpus;
use crate::joining::{Joined, Listings};
use crate::library::{self, Join};
use crate::pairs::{only_forbidding, Joint, Pair};
use crate::reference::checker::{accept, Start};
use crate::reference::job::{Job, MOST_FORBIDDEN, MOST_STATES};
use crate::reference::shape::{Shape, MOST_CELLS};
use crate::reference::version::Version;

/// Two pairs with a name for the table, and their instructions once they are counted.
pub struct Case {
    pub name: String,
    pub joint: Joint,
    /// Joined by the library and by the baseline.
    pub joined: Cost,
    /// Both pairs checked by the library.
    pub alone: f64,
}

impl Case {
    fn new(name: impl Into<String>, joint: Joint) -> Case {
        Case {
            name: name.into(),
            joint,
            joined: Cost::default(),
            alone: 0.0,
        }
    }
}

/// How much more a join takes than the two checks, in percent.
pub fn more(joined: f64, alone: f64) -> f64 {
    100.0 * (joined / alone - 1.0)
}

/// What is measured: the listings of the corpus that are taken as one; each routine of the corpus behind a
/// job that lists what it owes, as if it started where it has fewest members, and where it has most; and
/// as much as can be owed.
pub struct Cases {
    pub listings: Vec<Case>,
    pub behind_fewest: Vec<Case>,
    pub behind_most: Vec<Case>,
    pub most: Vec<Case>,
}

/// Where a routine of the corpus is thought to start.
#[derive(Clone, Copy)]
enum StartAt {
    FewestMembers,
    MostMembers,
}

impl Cases {
    pub fn new(corpus: &[Pair]) -> Result<Cases, String> {
        let mut listings = Vec::new();
        for [first, second] in corpus::joined()? {
            let name = first.name.trim_end_matches(".first").to_string();
            let both = Listings::of(first.routine, second.routine)?;
            if let (_, Joined::Pairs(pairs)) = both.judge() {
                listings.push(Case::new(name, pairs.joint(both.hand_over)));
            }
        }
        let behind = |start| {
            let joints = corpus.iter().filter_map(|pair| behind(pair, start));
            joints.map(|joint| Case::new("", joint)).collect()
        };
        Ok(Cases {
            listings,
            behind_fewest: behind(StartAt::FewestMembers),
            behind_most: behind(StartAt::MostMembers),
            most: vec![Case::new(
                "64 owed shapes of 12 cells, in another order",
                most(),
            )],
        })
    }

    /// All cases, in the order in which they are measured.
    pub fn all(&mut self) -> impl Iterator<Item = &mut Case> {
        let groups = [
            &mut self.listings,
            &mut self.behind_fewest,
            &mut self.behind_most,
            &mut self.most,
        ];
        groups.into_iter().flatten()
    }
}

/// A pair that starts where it has some members, behind a job that lists them and does nothing.
fn behind(pair: &Pair, start: StartAt) -> Option<Joint> {
    let read = accept(&pair.job, &pair.certificate, Start::HandedOver).ok()?;
    let at = |state: u64| {
        let members = read.members.iter().map(|member| &member.located);
        let here = members.filter(move |member| member.state == state);
        here.map(|member| member.shape.clone())
    };
    let counted = (0..read.job.states).map(|state| (at(state).count(), state));
    let listed = 1..=MOST_FORBIDDEN as usize;
    let counted = counted.filter(|(count, _)| listed.contains(count));
    let (_, start) = match start {
        StartAt::FewestMembers => counted.min()?,
        StartAt::MostMembers => counted.max()?,
    };
    let second = Pair {
        job: Job { start, ..read.job }.bytes(),
        certificate: pair.certificate.clone(),
    };
    Some(Joint {
        first: only_forbidding(read.job.version, at(start).collect(), 1),
        second,
        state: 0,
    })
}

/// As many shapes owed as can be, alike but for their last links, and listed in the opposite order.
fn most() -> Joint {
    let cells = MOST_CELLS as usize;
    let shape = |number: u64| {
        let mut links = vec![0; cells];
        links[cells - 2..].copy_from_slice(&[number / 8, number % 8]);
        Shape::of_codes(&[0; 8], &links)
    };
    let owed: Vec<Shape> = (0..MOST_FORBIDDEN).map(shape).collect();
    let listed = owed.iter().rev().cloned().collect();
    Joint {
        first: only_forbidding(Version::One, listed, 1),
        second: only_forbidding(Version::One, owed, 0),
        state: 0,
    }
}

/// The join of a joint by the library and by the baseline.
pub fn work(joint: &Joint) -> Work<'_> {
    Work {
        proved: joining(library::join, joint),
        baseline: joining(baseline::join::join, joint),
    }
}

fn joining(join: Join, joint: &Joint) -> Box<dyn Fn() + '_> {
    Box::new(move || {
        let [first, second] = joint.files();
        let mut out = [0; 8];
        black_box(join(first, second, joint.state, &mut out));
        black_box(out);
    })
}

/// Both pairs checked by the library. The second starts at a state more, so that the empty heap satisfies
/// no member there, and it is checked to its end.
pub fn alone(joint: &Joint) -> impl Fn() {
    let pairs = checked_alone(joint);
    move || {
        for pair in &pairs {
            black_box(library::check(&pair.job, &pair.certificate));
        }
    }
}

fn checked_alone(joint: &Joint) -> [Pair; 2] {
    let mut second = joint.second.clone();
    let states = &mut second.job[2..4];
    if u64::from(states[0]) < MOST_STATES {
        states.copy_from_slice(&[states[0] + 1, states[0]]);
    }
    [joint.first.clone(), second]
}

/// The pairs of joints, to be written, and the joints of pairs that were read; their states are found
/// again.
pub fn pairs<'a>(joints: impl Iterator<Item = &'a Joint>) -> Vec<Pair> {
    let pairs = joints.flat_map(|joint| [joint.first.clone(), joint.second.clone()]);
    pairs.collect()
}

pub fn joints(pairs: &[Pair]) -> Vec<Joint> {
    let joint = |both: &[Pair]| {
        let (first, second) = (both[0].clone(), both[1].clone());
        let is_joined =
            |&state: &u32| library::join(first.files(), second.files(), state, &mut []) == 0;
        let state = (0..MOST_STATES as u32).find(is_joined).unwrap_or(0);
        Joint {
            first,
            second,
            state,
        }
    };
    pairs.chunks_exact(2).map(joint).collect()
}

#[cfg(test)]
mod tests {
    use super::*;

    /// What is measured is joined, and the checks that it is compared with are accepted.
    #[test]
    fn what_is_measured_is_joined() {
        let corpus: Vec<Pair> = crate::pairs::accepted_pairs(Version::One, 7)
            .take(20)
            .collect();
        let starts = [StartAt::FewestMembers, StartAt::MostMembers].into_iter();
        let all =
            starts.flat_map(|start| corpus.iter().filter_map(move |pair| behind(pair, start)));
        let all: Vec<Joint> = all.chain([most()]).collect();
        let mut owed = 0;
        for joint in joints(&pairs(all.iter())) {
            let [first, second] = joint.files();
            let mut out = [0; 8];
            assert_eq!(library::join(first, second, joint.state, &mut out), 0);
            owed += out[0];
            for pair in checked_alone(&joint) {
                assert_eq!(library::check(&pair.job, &pair.certificate), 0);
            }
        }
        assert!(owed > MOST_FORBIDDEN + 20, "{owed}");
    }
}
