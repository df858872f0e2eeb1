//! The verdict on a job and a certificate.

use super::certificate::{read_members, MemberRead};
use super::cover::read_covers;
use super::heap::Place;
use super::job::Job;
use super::reader::Reader;
use super::shape::Shape;
use crate::verdict::{Counts, Refusal, Verdict};

pub const MOST_BYTES: usize = 65_536;

/// What the heap is with which a job's runs start.
#[derive(Clone, Copy, Debug, PartialEq, Eq)]
pub enum Start {
    /// It is empty, so that no member there may be satisfied by the empty heap.
    Empty,
    /// Another job hands it over, and owes that no member there is satisfied.
    HandedOver,
}

/// A pair that is accepted, as it was read, with its counts.
pub struct Accepted {
    pub job: Job,
    pub members: Vec<MemberRead>,
    pub counts: Counts,
}

/// The verdict on two buffers.
pub fn check(job: &[u8], certificate: &[u8]) -> Verdict {
    let accepted = accept(job, certificate, Start::Empty);
    accepted.map(|pair| pair.counts).into()
}

/// The pair of two buffers, or its refusal; 8 only where the job starts with the empty heap.
pub fn accept(job: &[u8], certificate: &[u8], start: Start) -> Result<Accepted, Refusal> {
    check_length(job, 1)?;
    check_length(certificate, 2)?;
    let job = Job::read(job)?;
    let mut reader = Reader::of_certificate(certificate);
    let members = read_members(&mut reader, &job)?;
    if start == Start::Empty {
        check_start(&job, &members)?;
    }
    let mut covers = 0;
    let mut links = 0;
    for cover in read_covers(&mut reader, &job, &members) {
        let cover = cover?;
        if let Some(broken) = cover.broken() {
            return Err(Refusal::of_cover(cover.place, broken));
        }
        covers += 1;
        links += cover.map().links() as u64;
    }
    reader.end(10)?;
    let counts = Counts {
        bads: job.forbidden.len() as u64,
        members: members.len() as u64,
        covers,
        links,
    };
    Ok(Accepted {
        job,
        members,
        counts,
    })
}

pub fn check_length(bytes: &[u8], number: u32) -> Result<(), Refusal> {
    match bytes.len() {
        1..=MOST_BYTES => Ok(()),
        _ => Err(Refusal::at(number, 0)),
    }
}

/// No member at the start state may be satisfied by the empty heap.
fn check_start(job: &Job, members: &[MemberRead]) -> Result<(), Refusal> {
    let satisfied = |member: &&MemberRead| {
        member.located.state == job.start && empty_heap_satisfies(&member.located.shape)
    };
    match members.iter().find(satisfied) {
        Some(member) => Err(Refusal::at(8, member.place)),
        None => Ok(()),
    }
}

pub fn empty_heap_satisfies(shape: &Shape) -> bool {
    shape.cells() == 0 && !shape.variables.contains(&Some(Place::Null))
}

#[cfg(test)]
mod tests {
    use super::*;
    use crate::verdict::Broken;

    /// State 0, new of variable 1, state 1; forbidden there: variable 1 at #.
    const JOB: [u8; 14] = [1, 1, 2, 0, 1, 0, 6, 1, 0, 1, 1, 1, 0, 1];

    /// The same with variable 1 := null.
    const ASSIGNED: [u8; 14] = [1, 1, 2, 0, 1, 0, 3, 1, 0, 1, 1, 1, 0, 1];

    fn accepted(bads: u64, members: u64, covers: u64, links: u64) -> Verdict {
        Verdict::Accepted(Counts {
            bads,
            members,
            covers,
            links,
        })
    }

    fn refused(number: u32, place: usize) -> Verdict {
        Verdict::Refused(Refusal::at(number, place))
    }

    /// 9 at a place, with the number of the rule and its name.
    fn not_covered(place: usize, rule: u64, name: u64) -> Verdict {
        let broken = Broken::of_numbers(rule, name).expect("there is such a rule");
        Verdict::Refused(Refusal::of_cover(place, broken))
    }

    /// The job with its byte at `at` replaced.
    fn job_with(at: usize, byte: u8) -> Vec<u8> {
        let mut job = JOB.to_vec();
        job[at] = byte;
        job
    }

    #[test]
    fn documented_pairs() {
        assert_eq!(check(&JOB, &[1, 1, 1, 0, 1, 0]), accepted(1, 1, 1, 0));
        assert_eq!(check(&JOB, &[1, 1, 1, 0, 2, 0]), not_covered(5, 3, 1));
        assert_eq!(check(&ASSIGNED, &[1, 1, 1, 0, 1, 0]), refused(6, 6));
        let with_start_member = [1, 2, 1, 0, 1, 0, 0, 0, 0];
        assert_eq!(check(&ASSIGNED, &with_start_member), refused(8, 5));
    }

    /// The forbidden shape is a chain of three cells to #. The member is the same, then its first cell
    /// and its last, then no cell.
    #[test]
    fn links_are_counted_over_all_covers() {
        let chain = [3, 0, 4, 5, 1];
        let located = [&[0][..], &chain].concat();
        let job = [&[1, 1, 2, 1, 0, 3], &located.repeat(3)[..]].concat();
        let members = [&[1, 3][..], &located, &[0, 2, 0, 4, 1], &[0, 0, 0]].concat();
        let covers = [0, 0, 1, 2, 1, 0, 2, 2];
        let verdict = check(&job, &[&members[..], &covers].concat());
        assert_eq!(verdict, accepted(3, 3, 3, 6));
    }

    #[test]
    fn lengths_come_first() {
        let long = [0; MOST_BYTES + 1];
        assert_eq!(check(&[], &[]), refused(1, 0));
        assert_eq!(check(&long, &[]), refused(1, 0));
        assert_eq!(check(&[128, 0], &[]), refused(2, 0));
        assert_eq!(check(&[128, 0], &long), refused(2, 0));
        assert_eq!(check(&[128, 0], &[0]), refused(3, 0));
    }

    #[test]
    fn jobs_are_read_number_by_number() {
        let good = [1, 1, 1, 0, 1, 0];
        assert_eq!(check(&JOB[..13], &good), refused(3, 13));
        assert_eq!(check(&[&JOB[..], &[0]].concat(), &good), refused(5, 14));
        let rows = [
            (0, 0),
            (0, 3),
            (1, 0),
            (1, 9),
            (2, 0),
            (2, 65),
            (3, 2),
            (5, 2),
            (6, 0),
            (6, 8),
            (7, 0),
            (7, 2),
            (8, 1),
            (9, 2),
            (10, 0),
            (10, 65),
            (11, 2),
            (12, 13),
            (13, 3),
        ];
        for (at, byte) in rows {
            assert_eq!(check(&job_with(at, byte), &good), refused(4, at));
        }
    }

    #[test]
    fn shapes_have_at_most_twelve_cells() {
        let twelve = [&JOB[..12], &[12], &[1], &[14; 12]].concat();
        let thirteen = [&JOB[..12], &[13], &[1], &[14; 13]].concat();
        assert_eq!(check(&twelve, &[1, 1, 1, 0, 1, 0]), accepted(1, 1, 1, 0));
        assert_eq!(check(&thirteen, &[1, 1, 1, 0, 1, 0]), refused(4, 12));
        assert_eq!(check(&JOB, &[1, 1, 1, 12, 1]), refused(6, 5));
        assert_eq!(check(&JOB, &[1, 1, 1, 13, 1]), refused(7, 3));
    }

    #[test]
    fn certificates_are_read_number_by_number() {
        assert_eq!(check(&JOB, &[3]), refused(7, 0));
        assert_eq!(check(&JOB, &[1]), refused(6, 1));
        assert_eq!(check(&JOB, &[1, 0]), refused(7, 1));
        assert_eq!(check(&JOB, &[1, 129, 4]), refused(7, 1));
        assert_eq!(check(&JOB, &[1, 1, 2]), refused(7, 2));
        assert_eq!(check(&JOB, &[1, 1, 1, 0, 3]), refused(7, 4));
        assert_eq!(check(&JOB, &[1, 1, 1, 0, 1]), refused(6, 5));
        assert_eq!(check(&JOB, &[1, 1, 1, 0, 1, 1]), refused(7, 5));
        assert_eq!(check(&JOB, &[1, 1, 1, 0, 1, 0, 0]), refused(10, 6));
        assert_eq!(check(&JOB, &[1, 1, 0, 0, 1, 0]), not_covered(5, 1, 0));
    }

    #[test]
    fn images_are_read_before_the_cover_is_judged() {
        let member_with_a_cell = [1, 1, 1, 1, 3, 0];
        let with = |covers: &[u8]| check(&JOB, &[&member_with_a_cell, covers].concat());
        assert_eq!(with(&[]), refused(6, 6));
        assert_eq!(with(&[0]), refused(6, 7));
        assert_eq!(with(&[0, 0]), refused(7, 7));
        assert_eq!(with(&[0, 128]), refused(6, 7));
    }

    /// State 0, one state, one variable, no transitions; forbidden there: a cell with a value.
    const VALUED: [u8; 14] = [2, 1, 1, 0, 0, 1, 0, 1, 0, 0, 1, 1, 0, 0];

    /// The same as the only member, which covers it.
    const VALUED_MEMBER: [u8; 12] = [2, 1, 0, 1, 0, 0, 1, 1, 0, 0, 0, 0];

    fn with(bytes: &[u8], at: usize, byte: u8) -> Vec<u8> {
        let mut bytes = bytes.to_vec();
        bytes[at] = byte;
        bytes
    }

    #[test]
    fn pairs_of_version_2() {
        assert_eq!(check(&VALUED, &VALUED_MEMBER), accepted(1, 1, 1, 0));
        let without_fact = [2, 1, 0, 1, 0, 0, 0, 0, 0];
        assert_eq!(check(&VALUED, &without_fact), accepted(1, 1, 1, 0));
        // The member then asks for more than is told.
        let unvalued = [2, 1, 1, 0, 0, 1, 0, 1, 0, 0, 0];
        assert_eq!(check(&unvalued, &VALUED_MEMBER), not_covered(10, 6, 0));
        // A cell below itself equals itself.
        let contradictory = with(&VALUED, 11, 0);
        assert_eq!(check(&contradictory, &VALUED_MEMBER), accepted(1, 1, 1, 0));
        let member_too = with(&VALUED_MEMBER, 7, 0);
        assert_eq!(check(&VALUED, &member_too), not_covered(10, 6, 0));
        assert_eq!(check(&contradictory, &member_too), accepted(1, 1, 1, 0));
    }

    #[test]
    fn versions_have_to_be_the_same() {
        let good = [1, 1, 1, 0, 1, 0];
        assert_eq!(check(&JOB, &VALUED_MEMBER), refused(20, 0));
        assert_eq!(check(&VALUED, &good), refused(20, 0));
        assert_eq!(check(&VALUED, &[1]), refused(20, 0));
        assert_eq!(check(&VALUED, &[3]), refused(7, 0));
        assert_eq!(check(&VALUED, &[0]), refused(7, 0));
        assert_eq!(check(&VALUED, &[130, 0]), refused(6, 0));
        assert_eq!(check(&VALUED[..13], &good), refused(3, 13));
        assert_eq!(check(&[&VALUED[..], &[0]].concat(), &good), refused(5, 14));
        assert_eq!(check(&VALUED, &[]), refused(2, 0));
    }

    #[test]
    fn kinds_above_7_are_of_version_2() {
        let good = [1, 1, 1, 0, 1, 0];
        let in_version_2 = |kind, b| [2, 1, 2, 0, 1, 0, kind, 1, b, 1, 1, 1, 0, 1, 0];
        let member = [2, 1, 1, 0, 1, 0, 0];
        for kind in 8..=13 {
            assert_eq!(check(&job_with(6, kind), &good), refused(4, 6));
            let b = u8::from(kind != 13);
            // The forbidden variable is at #, so that nothing comes before.
            assert_eq!(check(&in_version_2(kind, b), &member), accepted(1, 1, 1, 0));
            assert_eq!(check(&in_version_2(kind, 1 - b), &member), refused(4, 8));
            assert_eq!(check(&in_version_2(kind, 2), &member), refused(4, 8));
        }
        assert_eq!(check(&in_version_2(14, 1), &member), refused(4, 6));
    }

    /// Three cells; the facts begin at byte 12 of the job, and at byte 8 of the certificate.
    #[test]
    fn facts_are_judged_number_by_number() {
        let job = |facts: &[u8]| [&[2, 1, 1, 0, 0, 1, 0, 3, 0, 0, 0, 0][..], facts].concat();
        let member = |facts: &[u8]| [&[2, 1, 0, 3, 0, 0, 0, 0][..], facts].concat();
        let rows: [(&[u8], usize); 13] = [
            (&[161, 2], 0),
            (&[1, 2, 3, 3], 1),
            (&[1, 1, 3, 3], 2),
            (&[1, 1, 2, 3], 3),
            (&[2, 0, 1, 1, 0, 1, 1], 6),
            (&[2, 0, 1, 1, 0, 1, 0], 6),
            (&[2, 0, 1, 1, 0, 0, 2], 6),
            (&[2, 1, 0, 0, 0, 2, 2], 6),
            (&[2, 1, 0, 0, 0, 2, 3], 6),
            (&[2, 1, 0, 0, 0, 3, 0], 5),
            (&[2, 0, 0, 1, 1, 0, 3], 6),
            (&[3, 0, 0, 1, 0, 0, 2, 0, 0, 2], 9),
            (&[3, 0, 2, 2, 1, 0, 0, 0, 2, 2], 9),
        ];
        let good = [2, 1, 0, 0, 0, 0, 0];
        for (facts, at) in rows {
            assert_eq!(check(&job(facts), &good), refused(4, 12 + at), "{facts:?}");
            let verdict = check(&job(&[0]), &member(facts));
            assert_eq!(verdict, refused(7, 8 + at), "{facts:?}");
        }
        let cut: [&[u8]; 6] = [&[], &[1], &[1, 0], &[1, 0, 1], &[2, 0, 1, 1, 1], &[128, 2]];
        for facts in cut {
            let end = facts.len();
            assert_eq!(check(&job(facts), &good), refused(3, 12 + end), "{facts:?}");
            let verdict = check(&job(&[0]), &member(facts));
            assert_eq!(verdict, refused(6, 8 + end), "{facts:?}");
        }
        assert_eq!(check(&job(&[128, 0]), &good), refused(3, 12));
        // A shape without cells has no facts.
        let no_cells = [2, 1, 1, 0, 0, 1, 0, 0, 0, 1, 0, 0, 0];
        assert_eq!(check(&no_cells, &good), refused(4, 11));
    }

    /// All facts of twelve cells are 288, of which few follow from one that puts a cell below itself.
    #[test]
    fn as_many_facts_as_there_may_be() {
        let mut facts = vec![160, 2];
        for relation in 0..2 {
            for i in 0..12 {
                facts.extend((0..12).flat_map(|j| [relation, i, j]));
            }
        }
        let shape = |facts: &[u8]| [&[0, 12, 0][..], &[0; 12], facts].concat();
        let job = |facts: &[u8]| [vec![2, 1, 2, 1, 0, 1], shape(facts)].concat();
        let images: Vec<u8> = (0..12).collect();
        let by = |facts: &[u8]| [vec![2, 1], shape(facts), vec![0], images.clone()].concat();
        assert_eq!(check(&job(&facts), &by(&facts)), accepted(1, 1, 1, 0));
        assert_eq!(check(&job(&facts), &by(&[0])), accepted(1, 1, 1, 0));
        let own = [1, 0, 11, 11];
        let verdict = check(&job(&own), &by(&facts));
        assert_eq!(verdict, not_covered(2 + 15 + facts.len(), 6, 0));
        assert_eq!(
            check(&job(&own), &by(&[1, 1, 11, 11])),
            accepted(1, 1, 1, 0)
        );
        // In a ring of order all are below each other, but only of equal ones it follows that they are.
        let ring = |relation: u8| (0..12).flat_map(move |i| [relation, i, (i + 1) % 12]);
        let of_order: Vec<u8> = [12].into_iter().chain(ring(0)).collect();
        let verdict = check(&job(&of_order), &by(&facts));
        assert_eq!(verdict, not_covered(2 + 15 + facts.len(), 6, 0));
        let below: Vec<u8> = [144, 1].into_iter().chain(facts[2..434].to_vec()).collect();
        assert_eq!(check(&job(&of_order), &by(&below)), accepted(1, 1, 1, 0));
        let of_both: Vec<u8> = [24].into_iter().chain(ring(0)).chain(ring(1)).collect();
        assert_eq!(check(&job(&of_both), &by(&facts)), accepted(1, 1, 1, 0));
    }
}
