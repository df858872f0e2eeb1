//! Leaving members out of a closed set while the rest stays closed.

use std::collections::VecDeque;
use std::convert::Infallible;

use super::before::{each_before, forbidden};
use super::images::{features, find_images};
use super::shape::Located;
use crate::random::Random;
use crate::reference::job::Job;

/// In how many orders members are left out.
const ORDERS: usize = 4;

/// A closed part of a closed set from which nothing can be left out, what covers the forbidden shapes
/// first. Of the parts that several orders lead to it is the smallest.
pub fn fewer(job: &Job, members: &[Located]) -> Vec<Located> {
    let needs = Needs::of(job, members);
    let mut random = Random::new(0x39_5eed);
    let mut order: Vec<usize> = (0..members.len()).collect();
    order.sort_by_key(|&member| needs.covered_by[member].len());
    let mut least = needs.left(&order);
    for _ in 1..ORDERS {
        order.sort_by_cached_key(|_| random.word());
        let left = needs.left(&order);
        if left.count() < least.count() {
            least = left;
        }
    }
    let order = least.in_order().into_iter();
    order.map(|member| members[member]).collect()
}

/// Something that has to be covered.
struct Need {
    /// The member that it is a predecessor of; nothing for a forbidden shape.
    of: Option<usize>,
    /// The members that cover it.
    covering: Vec<usize>,
}

/// What has to be covered for the members of a closed set.
struct Needs {
    /// Those of the forbidden shapes come first, then those of each member in turn.
    all: Vec<Need>,
    /// For each member, the numbers of its own needs.
    of: Vec<Vec<usize>>,
    /// For each member, the numbers of the needs that it covers.
    covered_by: Vec<Vec<usize>>,
}

impl Needs {
    fn of(job: &Job, members: &[Located]) -> Needs {
        let mut by_state = vec![Vec::new(); job.states as usize];
        for (number, member) in members.iter().enumerate() {
            by_state[usize::from(member.state)].push((number, features(&member.shape.places)));
        }
        let covering = |needed: &Located| -> Vec<usize> {
            let told = features(&needed.shape.places);
            let here = by_state[usize::from(needed.state)].iter();
            here.filter(|&&(number, features)| {
                features & !told == 0
                    && find_images(&members[number].shape, &needed.shape).is_some()
            })
            .map(|&(number, _)| number)
            .collect()
        };
        let mut needs = Needs {
            all: Vec::new(),
            of: vec![Vec::new(); members.len()],
            covered_by: vec![Vec::new(); members.len()],
        };
        for bad in forbidden(job) {
            needs.add(None, covering(&bad));
        }
        for (number, member) in members.iter().enumerate() {
            let Ok(()) = each_before(job, member, |_, needed| -> Result<(), Infallible> {
                needs.add(Some(number), covering(needed));
                Ok(())
            });
        }
        needs
    }

    fn add(&mut self, of: Option<usize>, covering: Vec<usize>) {
        let number = self.all.len();
        if let Some(member) = of {
            self.of[member].push(number);
        }
        for &member in &covering {
            self.covered_by[member].push(number);
        }
        self.all.push(Need { of, covering });
    }

    /// What stays if each member in turn is left out where it can be.
    fn left(&self, order: &[usize]) -> Rest<'_> {
        let mut rest = Rest {
            needs: self,
            stays: vec![true; self.of.len()],
            covers: self.all.iter().map(|need| need.covering.len()).collect(),
        };
        for &member in order {
            rest.leave_out(member);
        }
        rest
    }
}

/// The members that were not left out.
struct Rest<'n> {
    needs: &'n Needs,
    stays: Vec<bool>,
    /// How many of them cover each need.
    covers: Vec<usize>,
}

impl Rest<'_> {
    /// Leaves out a member and those that need it, unless a forbidden shape would not be covered.
    fn leave_out(&mut self, member: usize) {
        let mut out = Vec::new();
        let mut waiting = vec![member];
        let mut is_closed = true;
        while let Some(member) = waiting.pop() {
            if !self.stays[member] {
                continue;
            }
            self.stays[member] = false;
            out.push(member);
            for &need in &self.needs.covered_by[member] {
                self.covers[need] -= 1;
                if self.covers[need] == 0 {
                    match self.needs.all[need].of {
                        Some(other) => waiting.push(other),
                        None => is_closed = false,
                    }
                }
            }
        }
        if !is_closed {
            for member in out {
                self.stays[member] = true;
                for &need in &self.needs.covered_by[member] {
                    self.covers[need] += 1;
                }
            }
        }
    }

    fn count(&self) -> usize {
        self.stays.iter().filter(|&&stays| stays).count()
    }

    /// The members in the order in which they are met from the forbidden shapes.
    fn in_order(&self) -> Vec<usize> {
        let is_forbidden = |need: &usize| self.needs.all[*need].of.is_none();
        let mut waiting: VecDeque<usize> =
            (0..self.needs.all.len()).take_while(is_forbidden).collect();
        let mut met = Vec::new();
        while let Some(need) = waiting.pop_front() {
            let covering = &self.needs.all[need].covering;
            let mut staying = covering.iter().filter(|&&member| self.stays[member]);
            let is_met = staying.clone().any(|member| met.contains(member));
            if let (false, Some(&member)) = (is_met, staying.next()) {
                met.push(member);
                waiting.extend(&self.needs.of[member]);
            }
        }
        met
    }
}

#[cfg(test)]
mod tests {
    use super::*;
    use crate::pairs::accepted_pairs;
    use crate::reference::certificate::read_members;
    use crate::reference::reader::Reader;
    use crate::reference::version::Version;
    use crate::search::covers::certificate_of;
    use crate::search::shape::Shape;

    /// The jobs of accepted pairs, with the members of their certificates.
    fn closed_sets(version: Version) -> impl Iterator<Item = (Job, Vec<Located>)> {
        accepted_pairs(version, 0x3a_5eed).map(|pair| {
            let job = Job::read(&pair.job).expect("a pair's job reads");
            let mut reader = Reader::of_certificate(&pair.certificate);
            let read = read_members(&mut reader, &job).expect("its certificate reads");
            let members = read.iter().map(|member| Located {
                state: member.located.state as u8,
                shape: Shape::of_reference(&member.located.shape),
            });
            (job, members.collect())
        })
    }

    /// Whether the members cover all that has to be covered.
    fn is_closed(job: &Job, members: &[Located]) -> bool {
        let needs = Needs::of(job, members).all;
        needs.iter().all(|need| !need.covering.is_empty())
    }

    #[test]
    fn what_stays_is_closed_and_nothing_more_can_go() {
        let mut smaller = 0;
        for version in [Version::One, Version::Two] {
            for (job, members) in closed_sets(version).take(100) {
                let left = fewer(&job, &members);
                assert!(left.iter().all(|member| members.contains(member)));
                assert!(is_closed(&job, &left));
                smaller += usize::from(left.len() < members.len());
                for member in 0..left.len() {
                    let mut rest = left.clone();
                    rest.remove(member);
                    assert!(!is_closed(&job, &rest), "{job:?}");
                }
                assert_eq!(certificate_of(&job, &left).members.len(), left.len());
            }
        }
        assert!(smaller > 20, "{smaller}");
    }
}
