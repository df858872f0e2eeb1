//! Splitting a job that needs more members than a certificate may have: each part forbids some of its
//! lines, and has a certificate of its own. What the parts forbid, no run meets.

use std::cmp::Reverse;

use super::attempts::{take_in, within_limits, Attempts, Failure, Tried, Way};
use super::chain::Chain;
use super::covers::certificate_of;
use super::explore::Extent;
use super::fewer::fewer;
use super::heaps::Heaps;
use super::shape::Located;
use super::{Limit, Stuck};
use crate::reference::certificate::Certificate;
use crate::reference::job::Job;

/// How often lines may turn out not to fit into so many parts before there are more.
const DEAD_ENDS: usize = 20;

/// Some lines of a job, and a certificate of the job that forbids these alone.
#[derive(Clone)]
pub struct Part {
    /// The numbers of the forbidden shapes, in rising order.
    pub forbidden: Vec<usize>,
    pub certificate: Certificate,
    /// A closed set that covers them, of which the certificate has the fewest members.
    closed: Vec<Located>,
}

impl Part {
    fn members(&self) -> usize {
        self.certificate.members.len()
    }
}

/// As few parts as the lines fit into, in the order of the lines; or the line that doesn't fit alone.
pub fn split(
    job: &Job,
    lines: &[Vec<usize>],
    heaps: &mut Heaps,
    tell: &mut dyn FnMut(Tried),
) -> Result<Vec<Part>, Failure> {
    let mut all_alone = Vec::new();
    for (number, line) in (1..).zip(lines) {
        let (extent, part) = alone(job, line, heaps)?;
        tell(Tried {
            way: Way::Alone(number),
            cells: extent.cells,
            values: extent.values,
            end: part.as_ref().map(Part::members).map_err(|limit| *limit),
        });
        all_alone.push(part.map_err(|limit| {
            Failure::Limit(Stuck {
                limit,
                alone: Some(line[0]),
            })
        })?);
    }
    all_alone.sort_by_key(|part| Reverse(part.members()));
    let placed = (2..=lines.len()).find_map(|most| {
        let mut placing = Placing {
            job,
            most,
            dead_ends: DEAD_ENDS,
        };
        placing.place(&[], &all_alone)
    });
    let mut parts = placed.expect("each line fits into a part of its own");
    parts.sort_by_key(|part| part.forbidden[0]);
    Ok(parts)
}

/// A line as a part of its own, or the limit that it comes to, and by heaps of which extent.
fn alone(
    job: &Job,
    line: &[usize],
    heaps: &mut Heaps,
) -> Result<(Extent, Result<Part, Limit>), Failure> {
    let of_line = job.forbidding(line);
    let no_one = &mut |_| ();
    let mut attempts = Attempts::new(&of_line, no_one);
    let found = attempts.by_heaps(heaps, true);
    let (extent, closed) = found.map_err(|failure| of_whole(failure, line))?;
    let part = attempts.smallest.map(|certificate| Part {
        forbidden: line.to_vec(),
        certificate,
        closed,
    });
    Ok((extent, part.ok_or(attempts.least)))
}

/// What fails with a line alone, as it is told of the whole job.
fn of_whole(failure: Failure, line: &[usize]) -> Failure {
    match failure {
        Failure::Impossible(chain) => Failure::Impossible(Chain {
            forbidden: line[chain.forbidden],
            ..chain
        }),
        limit => limit,
    }
}

/// Puts lines into a number of parts.
struct Placing<'a> {
    job: &'a Job,
    most: usize,
    /// How often it may still turn out that a line fits nowhere.
    dead_ends: usize,
}

impl Placing<'_> {
    /// The parts with the lines put into them, each where it adds fewest members, into a part of its own
    /// only where it fits into no other; nothing if they don't fit.
    fn place(&mut self, parts: &[Part], lines: &[Part]) -> Option<Vec<Part>> {
        let [line, rest @ ..] = lines else {
            return Some(parts.to_vec());
        };
        for (number, part) in self.choices(parts, line) {
            let mut parts = parts.to_vec();
            match parts.get_mut(number) {
                Some(old) => *old = part,
                None => parts.push(part),
            }
            let placed = self.place(&parts, rest);
            if placed.is_some() || self.dead_ends == 0 {
                return placed;
            }
        }
        self.dead_ends = self.dead_ends.saturating_sub(1);
        None
    }

    /// The parts that a line fits into, as they are with it, by how many members it adds; and a new one.
    fn choices(&self, parts: &[Part], line: &Part) -> Vec<(usize, Part)> {
        let with_line = |(number, part)| Some((number, self.together(part, line)?));
        let mut choices: Vec<(usize, Part)> =
            parts.iter().enumerate().filter_map(with_line).collect();
        choices.sort_by_key(|(number, part)| {
            part.members() as isize - parts[*number].members() as isize
        });
        if parts.len() < self.most {
            choices.push((parts.len(), line.clone()));
        }
        choices
    }

    /// Two parts as one, if a certificate for both is found.
    fn together(&self, one: &Part, other: &Part) -> Option<Part> {
        let mut forbidden = [&one.forbidden[..], &other.forbidden].concat();
        forbidden.sort_unstable();
        let mut closed = one.closed.clone();
        take_in(&mut closed, &other.closed);
        let job = self.job.forbidding(&forbidden);
        let certificate = certificate_of(&job, &fewer(&job, &closed));
        Some(Part {
            forbidden,
            certificate: within_limits(certificate).ok()?,
            closed,
        })
    }
}
