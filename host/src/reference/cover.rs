//! What has to be covered, the covers as they are read, and the test of one.

use super::certificate::{read_members, Cover, MemberRead};
use super::embedding::Map;
use super::job::{Job, Located};
use super::predecessor::predecessors;
use super::reader::Reader;
use crate::verdict::{Broken, Refusal, Rule};

/// Why a shape has to be covered; all are numbered from 0.
#[derive(Clone, Copy, Debug, PartialEq, Eq)]
pub enum Reason {
    /// It is a forbidden shape of the job.
    Forbidden(usize),
    /// It is a predecessor of a member by a transition.
    Before { member: usize, transition: usize },
}

/// A shape that has to be covered.
pub struct Owed {
    pub covered: Located,
    pub reason: Reason,
}

/// What has to be covered, in the order of the covers: each forbidden shape; then for each member,
/// each transition into its state, each predecessor, at the transition's from state.
pub fn owed<'a>(
    job: &'a Job,
    members: impl Iterator<Item = &'a Located> + 'a,
) -> impl Iterator<Item = Owed> + 'a {
    let forbidden = job.forbidden.iter().enumerate().map(|(number, bad)| Owed {
        covered: bad.clone(),
        reason: Reason::Forbidden(number),
    });
    let before = members
        .enumerate()
        .flat_map(|(number, member)| owed_before(job, number, member));
    forbidden.chain(before)
}

fn owed_before<'a>(
    job: &'a Job,
    member: usize,
    located: &'a Located,
) -> impl Iterator<Item = Owed> + 'a {
    let transitions = job.transitions.iter().enumerate();
    let into_its_state = transitions.filter(|(_, transition)| transition.to == located.state);
    into_its_state.flat_map(move |(number, transition)| {
        let shapes = predecessors(&located.shape, transition.operation);
        shapes.into_iter().map(move |shape| Owed {
            covered: Located {
                state: transition.from,
                shape,
            },
            reason: Reason::Before {
                member,
                transition: number,
            },
        })
    })
}

/// A cover that was read, with the place of its first byte, its member and what it is to cover.
pub struct CoverRead {
    pub place: usize,
    pub cover: Cover,
    pub member: Located,
    pub owed: Owed,
}

/// Reads cover after cover, as they are asked for.
pub fn read_covers<'a, 'b>(
    reader: &'a mut Reader<'b>,
    job: &'a Job,
    members: &'a [MemberRead],
) -> impl Iterator<Item = Result<CoverRead, Refusal>> + use<'a, 'b> {
    owed(job, members.iter().map(|member| &member.located)).map(|owed| {
        let place = reader.place;
        let number = reader.number(0..members.len() as u64)? as usize;
        let member = &members[number].located;
        let cells = owed.covered.shape.cells() as u64;
        let images = (0..member.shape.cells())
            .map(|_| Ok(reader.number(0..cells)? as usize))
            .collect::<Result<_, _>>()?;
        Ok(CoverRead {
            place,
            cover: Cover {
                member: number,
                images,
            },
            member: member.clone(),
            owed,
        })
    })
}

impl CoverRead {
    /// The map of the member's cells.
    pub fn map(&self) -> Map<'_> {
        Map {
            shape: &self.member.shape,
            other: &self.owed.covered.shape,
            images: &self.cover.images,
        }
    }

    /// The first rule that the cover breaks; nothing where it holds.
    pub fn broken(&self) -> Option<Broken> {
        if self.member.state != self.owed.covered.state {
            return Some(Broken {
                rule: Rule::State,
                name: 0,
            });
        }
        self.map().broken()
    }
}

/// The cover whose first byte is at a place; nothing where none begins there.
pub fn cover_at(job: &Job, certificate: &[u8], place: usize) -> Option<CoverRead> {
    let mut reader = Reader::of_certificate(certificate);
    let members = read_members(&mut reader, job).ok()?;
    let mut covers = read_covers(&mut reader, job, &members).map_while(Result::ok);
    covers.find(|cover| cover.place == place)
}

#[cfg(test)]
mod tests {
    use super::*;

    /// State 0, variable 1 := null, state 1; forbidden there: variable 1 at #.
    const JOB: [u8; 14] = [1, 1, 2, 0, 1, 0, 3, 1, 0, 1, 1, 1, 0, 1];

    /// Two members at state 1, the second with a cell: each has a predecessor at state 0.
    const CERTIFICATE: [u8; 13] = [1, 2, 1, 0, 1, 1, 1, 1, 0, 0, 0, 1, 0];

    #[test]
    fn covers_know_what_they_are_to_cover() {
        let job = Job::read(&JOB).unwrap();
        let at = |place| cover_at(&job, &CERTIFICATE, place);
        let reasons: Vec<Option<Reason>> = (8..14)
            .map(|place| at(place).map(|cover| cover.owed.reason))
            .collect();
        let before = |member| {
            Some(Reason::Before {
                member,
                transition: 0,
            })
        };
        let forbidden = Some(Reason::Forbidden(0));
        assert_eq!(reasons, [None, forbidden, before(0), before(1), None, None]);

        let last = at(11).expect("a cover begins there");
        assert_eq!((last.cover.member, last.owed.covered.state), (1, 0));
        let wrong_state = Broken {
            rule: Rule::State,
            name: 0,
        };
        assert_eq!(last.broken(), Some(wrong_state));
    }
}
