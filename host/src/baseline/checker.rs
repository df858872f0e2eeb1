//! The verdict on a job and a certificate, fast.

use super::embedding::{broken, follow, variables_agree, Images, ENDS, NO_IMAGES};
use super::job::{Entry, Job, NO_STATE};
use super::predecessor::each_predecessor;
use super::reader::{Reader, Stopped};
use super::shape::{Located, Shape, CELL};
use super::values;
use crate::reference::certificate::MOST_MEMBERS;
use crate::reference::checker::{Start, MOST_BYTES};
use crate::reference::version::Version;
use crate::verdict::{Broken, Counts, Refusal, Verdict};

/// The verdict on two buffers.
pub fn check(job: &[u8], certificate: &[u8]) -> Verdict {
    check_from(job, certificate, Start::Empty)
}

/// The same, 8 only where the job starts with the empty heap.
pub fn check_from(job: &[u8], certificate: &[u8], start: Start) -> Verdict {
    match is_of_version_2(job) {
        true => values::check(job, certificate, start),
        false => verdict(job, certificate, start, count),
    }
}

/// Whether the version number of a job is 2.
#[inline(always)]
pub fn is_of_version_2(job: &[u8]) -> bool {
    job.first() == Some(&(Version::Two as u8))
}

/// Checks a certificate of version 1, and counts what it has.
#[inline(always)]
fn count(job: &Job<Located>, certificate: &[u8]) -> Result<Counted, Refusal> {
    let mut covers = Covers::new(certificate);
    covers
        .check_all(job)
        .map_err(|Stopped| covers.reader.refusal)?;
    Ok(covers.counted())
}

/// What is counted in a certificate.
pub struct Counted {
    pub members: u64,
    pub covers: u64,
    pub links: u64,
}

/// The verdict on two buffers, given a check of the certificate that counts what it has.
#[inline(always)]
pub fn verdict<S: Entry>(
    job: &[u8],
    certificate: &[u8],
    start: Start,
    check: impl FnOnce(&Job<S>, &[u8]) -> Result<Counted, Refusal>,
) -> Verdict {
    let accept = || {
        check_length(job, 1)?;
        check_length(certificate, 2)?;
        let mut reader = Reader::new(job, 3, 4);
        // The job stays where it is read to.
        let mut job = Job::read(&mut reader);
        let job = job.as_mut().map_err(|&mut Stopped| reader.refusal)?;
        if start == Start::HandedOver {
            job.start = NO_STATE;
        }
        let counted = check(job, certificate)?;
        Ok(Counts {
            bads: job.forbidden.len() as u64,
            members: counted.members,
            covers: counted.covers,
            links: counted.links,
        })
    };
    accept().into()
}

pub fn check_length(bytes: &[u8], number: u32) -> Result<(), Refusal> {
    match bytes.len() {
        1..=MOST_BYTES => Ok(()),
        _ => Err(Refusal::at(number, 0)),
    }
}

/// An entry with its shape and state as one part.
pub trait Member: Entry {
    fn located(&self) -> &Located;
}

impl Member for Located {
    #[inline(always)]
    fn located(&self) -> &Located {
        self
    }
}

impl Entry for Located {
    const VERSION: Version = Version::One;

    #[inline(always)]
    fn read(reader: &mut Reader, variables: u16, states: u16) -> Result<Located, Stopped> {
        reader.located(variables, states)
    }
}

/// The members, and how far the covers have been read.
pub struct Covers<'a, M> {
    pub reader: Reader<'a>,
    pub members: Vec<M>,
    pub variables: usize,
    pub count: u64,
    pub links: u64,
}

impl Covers<'_, Located> {
    fn check_all(&mut self, job: &Job<Located>) -> Result<(), Stopped> {
        self.read_members(job)?;
        for bad in &job.forbidden {
            self.check(bad.state, &bad.shape)?;
        }
        for member in 0..self.members.len() {
            let Located { state, shape } = self.members[member];
            for transition in job.leading_to(state) {
                each_predecessor(&shape, transition.operation, &mut |before| {
                    self.check(transition.from, before)
                })?;
            }
        }
        self.reader.end(10)
    }

    /// Reads the next cover and tests that it holds for a shape at a state.
    pub fn check(&mut self, state: u8, covered: &Shape) -> Result<(), Stopped> {
        self.check_with(state, covered, |_, _| None)
    }
}

impl<'a, M: Member> Covers<'a, M> {
    pub fn new(certificate: &'a [u8]) -> Covers<'a, M> {
        Covers {
            reader: Reader::new(certificate, 6, 7),
            members: Vec::new(),
            variables: 0,
            count: 0,
            links: 0,
        }
    }

    pub fn counted(&self) -> Counted {
        Counted {
            members: self.members.len() as u64,
            covers: self.count,
            links: self.links,
        }
    }

    /// Reads the members, and refuses one that the empty heap satisfies at the start.
    pub fn read_members(&mut self, job: &Job<M>) -> Result<(), Stopped> {
        self.variables = job.variables.into();
        self.reader.version(M::VERSION)?;
        let count = self.reader.number(1, MOST_MEMBERS as u16)?;
        self.members.reserve_exact(count.into());
        let mut satisfied = None;
        for _ in 0..count {
            let place = self.reader.place;
            let member = M::read(&mut self.reader, job.variables, job.states)?;
            let Located { state, shape } = member.located();
            if *state == job.start && shape.empty_heap_satisfies() {
                satisfied = satisfied.or(Some(place));
            }
            self.members.push(member);
        }
        match satisfied {
            Some(place) => self.reader.refuse(8, place),
            None => Ok(()),
        }
    }

    /// Reads the next cover and tests that it holds for a shape at a state, given the test of what its
    /// member has beside a shape, by images that make the shape embed.
    #[inline(always)]
    pub fn check_with(
        &mut self,
        state: u8,
        covered: &Shape,
        besides: impl FnOnce(&M, &Images) -> Option<Broken>,
    ) -> Result<(), Stopped> {
        let place = self.reader.place;
        let number = self.reader.number(0, self.members.len() as u16 - 1)?;
        let whole = &self.members[usize::from(number)];
        let member = whole.located();
        let mut images = NO_IMAGES;
        let mut marks = ENDS;
        let mut twice = 0;
        for image in &mut images[usize::from(CELL)..][..usize::from(member.shape.cells)] {
            *image = CELL + self.reader.cell(covered.cells)?;
            twice |= marks & 1 << *image;
            marks |= 1 << *image;
        }
        self.count += 1;
        let may_hold = twice == 0
            && member.state == state
            && variables_agree(&member.shape, covered, &images, self.variables);
        let followed = match may_hold {
            true => follow(&member.shape, covered, &images, marks),
            false => None,
        };
        let broken = match followed {
            Some(paths) => {
                let Some(broken) = besides(whole, &images) else {
                    self.links += u64::from(paths.links);
                    return Ok(());
                };
                broken
            }
            None => broken(member, state, covered, &images, self.variables),
        };
        self.reader.refusal = Refusal::of_cover(place, broken);
        Err(Stopped)
    }
}
