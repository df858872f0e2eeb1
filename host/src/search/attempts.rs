//! Attempts to find a certificate, of which the smallest is taken.

use std::fmt;

use super::chain::{chain, Chain};
use super::closure::{Closure, Members, Obstacle};
use super::covers::certificate_of;
use super::explore::{Exploration, Extent};
use super::fewer::fewer;
use super::generalise::Order;
use super::heaps::Heaps;
use super::shape::Located;
use super::{Limit, Stuck};
use crate::reference::certificate::{Certificate, MOST_MEMBERS};
use crate::reference::checker::MOST_BYTES;
use crate::reference::job::Job;
use crate::text::counted;

/// How many shapes are taken in at most, as they are needed and in an attempt to generalise.
const MOST_NEEDED: usize = 1_000;
const MOST_GENERAL: usize = 2_000;

/// Why there is no certificate.
pub enum Failure {
    /// There is none, because of this chain.
    Impossible(Chain),
    /// None was found within a limit.
    Limit(Stuck),
}

/// Which members an attempt had.
#[derive(Clone, Copy, Debug, PartialEq, Eq)]
pub enum Way {
    /// Those of one closed set.
    Set(Members),
    /// The fewest of all sets of general members together.
    Joined,
    /// The fewest for one line of those that forbid something, which are numbered from 1.
    Alone(usize),
}

/// An attempt that has ended.
#[derive(Clone, Copy, Debug)]
pub struct Tried {
    pub way: Way,
    /// Cells and different values of the heaps that told how general members may be.
    pub cells: u8,
    pub values: usize,
    /// How many members it needs, or the limit that it came to.
    pub end: Result<usize, Limit>,
}

impl fmt::Display for Tried {
    fn fmt(&self, f: &mut fmt::Formatter) -> fmt::Result {
        match self.way {
            Way::Set(members) => f.write_str(match members {
                Members::AsNeeded => "members as needed",
                Members::General(Order::FactsFirst) => "general members, facts first",
                Members::General(Order::LinksFirst) => "general members, links first",
                Members::General(Order::HighestFirst) => "general members, highest first",
            }),
            Way::Joined => f.write_str("general members, all together"),
            Way::Alone(line) => write!(f, "forbidden line {line} alone"),
        }?;
        if self.way != Way::Set(Members::AsNeeded) {
            write!(f, ", by heaps of {}", counted(self.cells.into(), "cell"))?;
            if self.values > 0 {
                write!(f, " and {}", counted(self.values, "value"))?;
            }
        }
        match &self.end {
            Ok(members) => write!(f, ": {}", counted(*members, "member")),
            Err(limit) => write!(f, ": {limit}"),
        }
    }
}

/// Looks for a certificate, with the needed shapes as members and with members as general as heaps allow,
/// in several orders, and takes that with the fewest members. Where none is within the limits, larger
/// heaps are explored; as long as that helps, where the job is to be split otherwise.
pub fn certificate(
    job: &Job,
    heaps: &mut Heaps,
    is_split_else: bool,
    tell: &mut dyn FnMut(Tried),
) -> Result<Certificate, Failure> {
    let mut attempts = Attempts::new(job, tell);
    attempts.closed(heaps.explored(0), Members::AsNeeded)?;
    attempts.by_heaps(heaps, is_split_else)?;
    attempts.smallest.ok_or(Failure::Limit(Stuck {
        limit: attempts.least,
        alone: None,
    }))
}

/// What the attempts so far have found.
pub struct Attempts<'a, 't> {
    job: &'a Job,
    tell: &'t mut dyn FnMut(Tried),
    pub smallest: Option<Certificate>,
    /// Of the limits that attempts came to, the one that tells most.
    pub least: Limit,
}

impl<'a, 't> Attempts<'a, 't> {
    pub fn new(job: &'a Job, tell: &'t mut dyn FnMut(Tried)) -> Attempts<'a, 't> {
        Attempts {
            job,
            tell,
            smallest: None,
            least: Limit::Cells,
        }
    }

    /// Makes the attempts with general members by larger and larger heaps, until a certificate is within
    /// the limits or, where only what helps is asked for, more cells don't lead to fewer members. Gives the last extent, and the closed sets
    /// together.
    pub fn by_heaps(
        &mut self,
        heaps: &mut Heaps,
        only_helpful: bool,
    ) -> Result<(Extent, Vec<Located>), Failure> {
        let mut number = 0;
        loop {
            let known = self.least;
            let reached = heaps.explored(number);
            let (extent, closed) = (reached.extent, self.general(reached)?);
            let is_no_help = only_helpful
                && heaps.has_more_cells(number)
                && matches!(known, Limit::Members(_))
                && self.least == known;
            number += 1;
            if self.smallest.is_some() || is_no_help || number == Heaps::EXTENTS {
                return Ok((extent, closed));
            }
        }
    }

    /// Makes the attempts with general members. Gives all closed sets of them together, which are one
    /// too, or none at a limit.
    fn general(&mut self, reached: &mut Exploration) -> Result<Vec<Located>, Failure> {
        let mut joined: Vec<Located> = Vec::new();
        let mut sets = 0;
        for order in Order::ALL {
            let members = self.closed(reached, Members::General(order))?;
            let known = joined.len();
            take_in(&mut joined, &members);
            sets += usize::from(joined.len() > known);
        }
        if sets > 1 {
            self.take(Way::Joined, reached.extent, &joined);
        }
        Ok(joined)
    }

    /// Closes a set of members and takes its certificate. Gives the set, or none at a limit.
    fn closed(
        &mut self,
        reached: &mut Exploration,
        members: Members,
    ) -> Result<Vec<Located>, Failure> {
        let (way, extent) = (Way::Set(members), reached.extent);
        let most = match members {
            Members::AsNeeded => MOST_NEEDED,
            Members::General(_) => MOST_GENERAL,
        };
        let mut closure = Closure::new(self.job, reached, members, most);
        match closure.close() {
            Ok(()) => {
                let live = closure.live_members();
                self.take(way, extent, &live);
                return Ok(live);
            }
            Err(Obstacle::Reached(obstruction)) => {
                return Err(Failure::Impossible(chain(self.job, reached, &obstruction)))
            }
            Err(Obstacle::TooMany) => self.ended(way, extent, Err(Limit::Shapes(most))),
            Err(Obstacle::TooManyCells) => self.ended(way, extent, Err(Limit::Cells)),
        }
        Ok(Vec::new())
    }

    /// Takes the certificate with the fewest members of a closed set, if it is the smallest so far.
    fn take(&mut self, way: Way, extent: Extent, members: &[Located]) {
        let found = within_limits(certificate_of(self.job, &fewer(self.job, members)));
        let end = found.as_ref().map(|certificate| certificate.members.len());
        self.ended(way, extent, end.map_err(|limit| *limit));
        if let Ok(found) = found {
            let is_smaller = |old: &Certificate| size(&found) < size(old);
            if self.smallest.as_ref().is_none_or(is_smaller) {
                self.smallest = Some(found);
            }
        }
    }

    fn ended(&mut self, way: Way, extent: Extent, end: Result<usize, Limit>) {
        if let Err(limit) = end {
            self.least = self.least.min(limit);
        }
        let Extent { cells, values, .. } = extent;
        (self.tell)(Tried {
            way,
            cells,
            values,
            end,
        });
    }
}

/// Adds those members to a set that aren't in it.
pub fn take_in(set: &mut Vec<Located>, members: &[Located]) {
    for member in members {
        if !set.contains(member) {
            set.push(*member);
        }
    }
}

/// Members first, since they come first to their limit.
fn size(certificate: &Certificate) -> (usize, usize) {
    (certificate.members.len(), certificate.bytes().len())
}

/// A certificate, if a file may hold it.
pub fn within_limits(certificate: Certificate) -> Result<Certificate, Limit> {
    let (members, bytes) = (certificate.members.len(), certificate.bytes().len());
    if members as u64 > MOST_MEMBERS {
        return Err(Limit::Members(members));
    }
    if bytes > MOST_BYTES {
        return Err(Limit::Bytes(bytes));
    }
    Ok(certificate)
}
