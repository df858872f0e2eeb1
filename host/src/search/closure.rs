//! Members closed under predecessors up to embedding.

use std::collections::VecDeque;

use super::before::{each_before, forbidden};
use super::explore::{Exploration, Extent, Step};
use super::generalise::{generalise, Order};
use super::images::{features, find_images, Features};
use super::shape::{Located, Shape};
use super::smaller::without_lost;
use crate::reference::job::Job;
use crate::reference::shape::MOST_CELLS;

/// A shape that must not be met at a state, and why.
pub struct Entry {
    pub member: Located,
    features: Features,
    /// The shape that had to be covered; `member` is this or more general.
    pub needed: Shape,
    /// The entry that it is a predecessor of, and by which transition; nothing for a forbidden
    /// shape.
    pub because: Option<(usize, usize)>,
    /// Whether no later, more general entry has taken its place, and it isn't known to be reached.
    live: bool,
}

/// Why no closed set was found.
pub enum Obstacle {
    /// A forbidden shape is reached.
    Reached(Box<Obstruction>),
    /// The set grew beyond its limit.
    TooMany,
    /// A needed shape of more cells than a file may hold.
    TooManyCells,
}

/// The needed shape, why it is needed, and the number of the heap reached that satisfies it.
pub struct Obstruction {
    pub needed: Located,
    pub because: Option<(usize, usize)>,
    pub heap: usize,
}

/// Which shapes are taken for members: those that have to be covered, or more general ones, as far as
/// the reached heaps allow.
#[derive(Clone, Copy, Debug, PartialEq, Eq)]
pub enum Members {
    AsNeeded,
    General(Order),
}

/// A set of entries that grows until it is closed.
pub struct Closure<'a, 'e, 'r> {
    job: &'a Job,
    reached: &'e mut Exploration<'r>,
    pub entries: Vec<Entry>,
    by_state: Vec<Vec<usize>>,
    members: Members,
    most_entries: usize,
}

impl<'a, 'e, 'r> Closure<'a, 'e, 'r> {
    /// Begins with nothing.
    pub fn new(
        job: &'a Job,
        reached: &'e mut Exploration<'r>,
        members: Members,
        most_entries: usize,
    ) -> Closure<'a, 'e, 'r> {
        Closure {
            job,
            reached,
            entries: Vec::new(),
            by_state: vec![Vec::new(); job.states as usize],
            members,
            most_entries,
        }
    }

    /// Adds members until every forbidden shape and every predecessor of a member is covered. Where a
    /// member turns out to be too general, it is taken out and what it covered is covered anew.
    pub fn close(&mut self) -> Result<(), Obstacle> {
        loop {
            match self.grow() {
                Err(Obstacle::Reached(obstruction)) => self.refine(*obstruction)?,
                other => return other,
            }
        }
    }

    /// Adds members until all is covered or one is needed that is reached. Forbidden shapes are taken
    /// in an order of their own, so that nothing hangs on the job's.
    fn grow(&mut self) -> Result<(), Obstacle> {
        let mut waiting = VecDeque::new();
        let mut bads = forbidden(self.job);
        bads.sort_by_key(|bad| (bad.state, bad.shape));
        for bad in bads {
            waiting.extend(self.cover(&bad, None)?);
        }
        waiting.extend((0..self.entries.len()).filter(|&number| self.entries[number].live));
        while let Some(number) = waiting.pop_front() {
            if self.entries[number].live {
                let member = self.entries[number].member;
                each_before(self.job, &member, |transition, needed| {
                    waiting.extend(self.cover(needed, Some((number, transition)))?);
                    Ok(())
                })?;
            }
        }
        Ok(())
    }

    /// Takes out the members that lead to an obstruction, up to one that was made more general. They
    /// are taken for reached from then on.
    fn refine(&mut self, obstruction: Obstruction) -> Result<(), Obstacle> {
        let Some((number, transition)) = obstruction.because else {
            return Err(Obstacle::Reached(Box::new(obstruction)));
        };
        let Entry {
            member,
            needed,
            because,
            ..
        } = self.entries[number];
        let Located { state, shape } = member;
        let step = Step::Transition(obstruction.heap, transition);
        let heap = self.reached.take_in(state, shape, step);
        self.take_out(number);
        match shape == needed {
            true => self.refine(Obstruction {
                needed: member,
                because,
                heap,
            }),
            false => Ok(()),
        }
    }

    /// Takes out an entry and those that are there because of it.
    fn take_out(&mut self, number: usize) {
        let mut out = vec![false; self.entries.len()];
        for (other, entry) in self.entries.iter_mut().enumerate() {
            let is_after = matches!(entry.because, Some((cause, _)) if out[cause]);
            out[other] = other == number || is_after;
            entry.live &= !out[other];
        }
        for here in &mut self.by_state {
            here.retain(|&other| !out[other]);
        }
    }

    /// Sees that a shape is covered; gives the number of the entry that had to be added.
    fn cover(
        &mut self,
        needed: &Located,
        because: Option<(usize, usize)>,
    ) -> Result<Option<usize>, Obstacle> {
        if self.covering(needed).next().is_some() {
            return Ok(None);
        }
        let Located { state, shape } = *needed;
        if let Some(heap) = self.reached.satisfying(state, &shape) {
            return Err(Obstacle::Reached(Box::new(Obstruction {
                needed: *needed,
                because,
                heap,
            })));
        }
        let general = match self.members {
            Members::General(order) => self.generalised(state, shape, order),
            Members::AsNeeded => shape,
        };
        if u64::from(general.places.cells) > MOST_CELLS {
            return Err(Obstacle::TooManyCells);
        }
        if self.entries.len() == self.most_entries {
            return Err(Obstacle::TooMany);
        }
        Ok(Some(self.add(state, general, shape, because)))
    }

    /// A shape as general as the explored heaps tell: it has fewer cells than they may have, and none
    /// satisfies it, nor would with a few lost cells beside it, unless it is about such cells.
    fn generalised(&self, state: u8, shape: Shape, order: Order) -> Shape {
        let Extent { cells, lost, .. } = self.reached.extent;
        let is_satisfied = |shape: &Shape| self.reached.satisfying(state, shape).is_some();
        let lost = match is_satisfied(&without_lost(&shape, lost)) {
            true => 0,
            false => lost,
        };
        generalise(shape, order, |simpler| {
            simpler.places.cells < cells && !is_satisfied(&without_lost(simpler, lost))
        })
    }

    fn add(
        &mut self,
        state: u8,
        shape: Shape,
        needed: Shape,
        because: Option<(usize, usize)>,
    ) -> usize {
        let number = self.entries.len();
        let told = features(&shape.places);
        let entries = &mut self.entries;
        self.by_state[usize::from(state)].retain(|&other| {
            let other = &mut entries[other];
            other.live =
                told & !other.features != 0 || find_images(&shape, &other.member.shape).is_none();
            other.live
        });
        self.by_state[usize::from(state)].push(number);
        self.entries.push(Entry {
            member: Located { state, shape },
            features: told,
            needed,
            because,
            live: true,
        });
        number
    }

    /// The members of the live entries.
    pub fn live_members(&self) -> Vec<Located> {
        let live = self.entries.iter().filter(|entry| entry.live);
        live.map(|entry| entry.member).collect()
    }

    /// The live entries whose member covers a shape.
    fn covering<'s>(
        &'s self,
        covered: &'s Located,
    ) -> impl Iterator<Item = usize> + use<'s, 'a, 'e, 'r> {
        let told = features(&covered.shape.places);
        let here = self.by_state[usize::from(covered.state)].iter().copied();
        here.filter(move |&number| {
            let entry = &self.entries[number];
            entry.features & !told == 0
                && find_images(&entry.member.shape, &covered.shape).is_some()
        })
    }
}
