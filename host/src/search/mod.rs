//! A search for certificates. Nobody has to trust it: what it finds is checked.

pub mod attempts;
pub mod before;
pub mod chain;
mod closure;
pub mod covers;
mod explore;
mod facts;
mod fewer;
pub mod flat_heap;
pub mod generalise;
mod heaps;
pub mod images;
pub mod look;
mod pool;
pub mod run;
pub mod satisfied;
pub mod shape;
mod smaller;
pub mod split;
#[cfg(test)]
mod trial;

use std::fmt;

use crate::reference::certificate::{Certificate, MOST_MEMBERS};
use crate::reference::checker::MOST_BYTES;
use crate::reference::job::Job;
use crate::reference::shape::MOST_CELLS;
use crate::reference::version::Version;
use attempts::{certificate, Failure, Tried};
use chain::Chain;
use explore::Extent;
use heaps::Heaps;
use look::{Distance, Look};
use run::{Bound, WrongRun};
use split::{split, Part};

/// What a search ends with.
pub enum Outcome {
    Certified(Certificate),
    /// Parts that together forbid all, with a certificate each; one for all wasn't found.
    Split(Vec<Part>),
    /// A run meets what is forbidden.
    Wrong(WrongRun),
    /// There is no certificate because of this chain, and no run within the bound meets what is
    /// forbidden, nor one within the other bound by the transitions of the chain.
    Impossible {
        chain: Chain,
        looked: Bound,
        along: Bound,
    },
    /// No certificate was found within the limit that is named, and no such run.
    Undecided(Stuck, Bound),
}

/// Where a search for a certificate ended.
#[derive(Clone, Copy, Debug, PartialEq, Eq)]
pub struct Stuck {
    pub limit: Limit,
    /// The number of a forbidden shape whose line alone comes to the limit; none where the job isn't to
    /// be split or can't be.
    pub alone: Option<usize>,
}

/// A limit of the format or of the search within which no certificate was found; those that tell most
/// come first.
#[derive(Clone, Copy, Debug, PartialEq, Eq, PartialOrd, Ord)]
pub enum Limit {
    /// So many members are needed, more than a certificate has.
    Members(usize),
    /// So many bytes are needed, more than a certificate has.
    Bytes(usize),
    /// More shapes are needed than so many, which the search takes in.
    Shapes(usize),
    /// A shape of more cells is needed than a file may hold.
    Cells,
}

impl fmt::Display for Limit {
    fn fmt(&self, f: &mut fmt::Formatter) -> fmt::Result {
        match self {
            Limit::Members(count) => {
                write!(f, "{count} members are needed, {MOST_MEMBERS} are allowed")
            }
            Limit::Bytes(count) => write!(f, "{count} bytes are needed, {MOST_BYTES} are allowed"),
            Limit::Shapes(most) => write!(f, "more than {most} shapes are needed"),
            Limit::Cells => write!(f, "a shape of more than {MOST_CELLS} cells is needed"),
        }
    }
}

/// How far heaps are explored in each attempt to generalise, for jobs without values.
const EXTENTS: [Extent; Heaps::EXTENTS] = [extent(6), extent(7), extent(8), extent(9)];

const fn extent(cells: u8) -> Extent {
    Extent {
        cells,
        values: 0,
        heaps: 30_000,
        lost: 0,
    }
}

/// The same for jobs with values.
const EXTENTS_WITH_VALUES: [Extent; Heaps::EXTENTS] = [
    extent_with_values(5, 4),
    extent_with_values(5, 5),
    extent_with_values(6, 4),
    extent_with_values(7, 3),
];

const fn extent_with_values(cells: u8, values: usize) -> Extent {
    Extent {
        cells,
        values,
        heaps: 300_000,
        lost: cells as usize / 2,
    }
}

/// How many heaps are looked at for a run at first, and where there is no certificate.
const FIRST_HEAPS: usize = 10_000;
const MOST_HEAPS: usize = 200_000;

/// Looks for a run that meets what is forbidden, and where the first heaps show none for a certificate.
/// Where there is none of that either, more heaps are looked at.
pub fn search(job: &Job) -> Outcome {
    search_lines(job, &[])
}

/// The same; where one certificate isn't enough the job is split between its lines, the numbers of whose
/// forbidden shapes are given.
pub fn search_lines(job: &Job, lines: &[Vec<usize>]) -> Outcome {
    search_telling(job, lines, &first_look(job), &mut |_| ())
}

/// The heaps that are looked at first.
pub fn first_look(job: &Job) -> Look<'_> {
    Look::forward(job, distance(job, FIRST_HEAPS))
}

/// The heaps that are looked at where the first ones don't show it.
pub fn far_look(job: &Job) -> Look<'_> {
    Look::forward(job, distance(job, MOST_HEAPS))
}

fn distance(job: &Job, heaps: usize) -> Distance {
    let values = extents(job)[0].values;
    Distance { values, heaps }
}

/// Searches behind the first look. Each attempt to find a certificate is told as it ends.
pub fn search_telling(
    job: &Job,
    lines: &[Vec<usize>],
    look: &Look,
    tell: &mut dyn FnMut(Tried),
) -> Outcome {
    if let Some(wrong) = look.wrong_run() {
        return Outcome::Wrong(wrong);
    }
    let failure = match certified(job, lines, tell) {
        Ok(outcome) => return outcome,
        Err(failure) => failure,
    };
    match failure {
        Failure::Impossible(chain) => {
            let transitions = chain.links.iter().filter_map(|link| link.transition);
            let along = Look::along(job, transitions.collect(), distance(job, MOST_HEAPS));
            let far = far_look(job);
            match along.wrong_run().or_else(|| far.wrong_run()) {
                Some(wrong) => Outcome::Wrong(wrong),
                None => Outcome::Impossible {
                    chain,
                    looked: far.bound(),
                    along: along.bound(),
                },
            }
        }
        Failure::Limit(stuck) => {
            let far = far_look(job);
            match far.wrong_run() {
                Some(wrong) => Outcome::Wrong(wrong),
                None => Outcome::Undecided(stuck, far.bound()),
            }
        }
    }
}

/// A certificate for the whole job, or else one for each of several parts.
fn certified(
    job: &Job,
    lines: &[Vec<usize>],
    tell: &mut dyn FnMut(Tried),
) -> Result<Outcome, Failure> {
    let mut heaps = Heaps::new(job, extents(job));
    let is_split_else = lines.len() > 1;
    match certificate(job, &mut heaps, is_split_else, tell) {
        Err(Failure::Limit(_)) if is_split_else => {
            let parts = split(job, lines, &mut heaps, tell)?;
            Ok(match <[Part; 1]>::try_from(parts) {
                Ok([whole]) => Outcome::Certified(whole.certificate),
                Err(parts) => Outcome::Split(parts),
            })
        }
        certificate => Ok(Outcome::Certified(certificate?)),
    }
}

fn extents(job: &Job) -> [Extent; Heaps::EXTENTS] {
    match job.version {
        Version::One => EXTENTS,
        Version::Two => EXTENTS_WITH_VALUES,
    }
}
