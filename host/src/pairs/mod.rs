//! Pairs of a job and a certificate to try checkers on: accepted ones, and the same with damage.

mod accepted;
mod beyond;
mod broken;
mod codes;
mod damage;
mod deletes;
mod facts;
mod joints;
mod long;
mod many_facts;
mod near;
mod series;
mod valued;
mod valued_damage;

use crate::random::Random;
use crate::reference::carry;
use crate::reference::certificate::{Certificate, Cover};
use crate::reference::checker::MOST_BYTES;
use crate::reference::cover::owed;
use crate::reference::job::{Job, Located};
use crate::reference::shape::Shape;
use crate::reference::version::{Direction, Version};
use crate::verdict::Files;
use accepted::accepted;
use beyond::beyond;
use broken::broken;
use damage::damaged;
use deletes::deletes;
use joints::joint;
pub use joints::{only_forbidding, Joint};
pub use long::long_pair;
use many_facts::many_facts;
use near::near;
use series::series;
use valued::valued;
use valued_damage::damaged_values;

/// The bytes of a job and of a certificate.
#[derive(Clone, Debug, PartialEq, Eq)]
pub struct Pair {
    pub job: Vec<u8>,
    pub certificate: Vec<u8>,
}

/// A job and a certificate, before they are bytes.
#[derive(Clone)]
pub struct Draft {
    pub job: Job,
    pub certificate: Certificate,
}

impl Draft {
    pub fn pair(&self) -> Pair {
        Pair {
            job: self.job.bytes(),
            certificate: self.certificate.bytes(),
        }
    }
}

impl Pair {
    pub fn files(&self) -> Files<'_> {
        (&self.job, &self.certificate)
    }

    /// The pair in the other version, where it is of this one and can be carried.
    pub fn carried(&self, direction: Direction) -> Option<Pair> {
        let certificate = carry::certificate(direction, self.files());
        Some(Pair {
            job: carry::job(direction, &self.job).ok()?,
            certificate: carry::in_room(certificate, MOST_BYTES).ok()?,
        })
    }

    /// The bytes of a job and of a certificate with these members and covers.
    pub fn of(job: &Job, members: Vec<Located>, covers: Vec<Cover>) -> Pair {
        let certificate = Certificate {
            version: job.version,
            members,
            covers,
        };
        Pair {
            job: job.bytes(),
            certificate: certificate.bytes(),
        }
    }
}

/// A shape that everything satisfies, at a state.
pub fn anything(state: u64, variables: usize) -> Located {
    Located {
        state,
        shape: Shape::of_codes(&vec![0; variables], &[]),
    }
}

/// The pair in which the first member, which has no cells, covers all but what one cover, by its
/// number, is to cover.
pub fn pair_with(job: &Job, members: Vec<Located>, number: usize, cover: Cover) -> Pair {
    let of_first = Cover {
        member: 0,
        images: Vec::new(),
    };
    let mut covers = vec![of_first; owed(job, members.iter()).count()];
    covers[number] = cover;
    Pair::of(job, members, covers)
}

/// How many damaged pairs are made of each accepted one.
const DAMAGED: usize = 24;

/// An endless, deterministic supply of pairs.
pub struct Pairs {
    random: Random,
    accepted: Pair,
    left: usize,
}

impl Pairs {
    pub fn new(seed: u64) -> Pairs {
        let mut random = Random::new(seed);
        Pairs {
            accepted: accepted(&mut random),
            random,
            left: DAMAGED,
        }
    }
}

impl Iterator for Pairs {
    type Item = Pair;

    fn next(&mut self) -> Option<Pair> {
        if self.left > 0 {
            self.left -= 1;
            return Some(damaged(&mut self.random, &self.accepted));
        }
        self.left = DAMAGED;
        let next = accepted(&mut self.random);
        Some(std::mem::replace(&mut self.accepted, next))
    }
}

/// An endless, deterministic supply of pairs of version 2.
pub struct ValuedPairs {
    random: Random,
    accepted: Draft,
    left: usize,
}

impl ValuedPairs {
    pub fn new(seed: u64) -> ValuedPairs {
        let mut random = Random::new(seed);
        ValuedPairs {
            accepted: valued(&mut random),
            random,
            left: DAMAGED,
        }
    }
}

impl Iterator for ValuedPairs {
    type Item = Pair;

    fn next(&mut self) -> Option<Pair> {
        if self.left > 0 {
            self.left -= 1;
            return Some(damaged_values(&mut self.random, &self.accepted));
        }
        self.left = DAMAGED;
        let next = valued(&mut self.random);
        Some(std::mem::replace(&mut self.accepted, next).pair())
    }
}

/// Endless accepted pairs of a version.
pub fn accepted_pairs(version: Version, seed: u64) -> impl Iterator<Item = Pair> {
    let mut random = Random::new(seed);
    std::iter::repeat_with(move || match version {
        Version::One => accepted(&mut random),
        Version::Two => valued(&mut random).pair(),
    })
}

/// Endless damaged copies of a pair.
pub fn damaged_copies(pair: &Pair, seed: u64) -> impl Iterator<Item = Pair> + '_ {
    let mut random = Random::new(seed);
    std::iter::repeat_with(move || damaged(&mut random, pair))
}

/// Endless pairs whose covers hold or nearly do.
pub fn near_pairs(seed: u64) -> impl Iterator<Item = Pair> {
    let mut random = Random::new(seed);
    std::iter::repeat_with(move || near(&mut random))
}

/// Endless pairs of a version in which one cover breaks every choice of rules in turn.
pub fn broken_pairs(version: Version, seed: u64) -> impl Iterator<Item = Pair> {
    let mut random = Random::new(seed);
    (0..).map(move |turn| broken(&mut random, version, turn))
}

/// Endless pairs of version 2 with as many facts as there may be, or nearly.
pub fn many_fact_pairs(seed: u64) -> impl Iterator<Item = Pair> {
    let mut random = Random::new(seed);
    (0..).map(move |turn| many_facts(&mut random, turn))
}

/// Endless pairs of version 2 with what version 1 lacks at chosen spots, or without any of it.
pub fn beyond_pairs(seed: u64) -> impl Iterator<Item = Pair> {
    let mut random = Random::new(seed);
    (0..).map(move |turn| beyond(&mut random, turn))
}

/// Endless pairs whose covers follow each other closely.
pub fn series_pairs(seed: u64) -> impl Iterator<Item = Pair> {
    let mut random = Random::new(seed);
    (0..).map(move |turn| series(&mut random, turn))
}

/// Endless pairs with a delete and one to seven dangling variables beside its own.
pub fn delete_pairs(seed: u64) -> impl Iterator<Item = Pair> {
    let mut random = Random::new(seed);
    (0..).map(move |turn| deletes(&mut random, turn))
}

/// Endless pairs of pairs to join, of all versions, right or wrong in one thing or two.
pub fn joints(seed: u64) -> impl Iterator<Item = Joint> {
    let mut random = Random::new(seed);
    std::iter::repeat_with(move || joint(&mut random))
}
