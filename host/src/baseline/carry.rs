//! Files carried between the versions, fast: read with nothing judged, and then copied in pieces, as all
//! but the version and the numbers of facts stays byte for byte.

use super::checker::{check_length, Covers, Member};
use super::job::{Job, NO_STATE};
use super::predecessor;
use super::reader::{Reader, Stopped};
use super::shape::Located;
use super::shapes::{number, Shapes, AHEAD, TRANSITION};
use super::values::{self, Valued};
use crate::library::carry::CarryCalls;
use crate::reference::carry::File;
use crate::reference::checker::MOST_BYTES;
use crate::reference::operation::KINDS;
use crate::reference::version::{Direction, Version};
use crate::verdict::{Files, Refusal};

pub const CALLS: CarryCalls = CarryCalls { job, certificate };

/// The number of a refusal, and the two values beside it.
type Refused = (u32, [u64; 2]);

/// Carries a job, with the answer for a host in C.
#[inline(never)]
pub fn job(direction: Direction, job: &[u8], bytes: &mut [u8], out: &mut [u64]) -> u32 {
    let carried = read_job(direction, job).and_then(|()| {
        if direction == Direction::Down {
            check_job_kept(job)?;
        }
        let forbidden = forbidden_of(direction, job);
        write(direction, job, forbidden, bytes)
    });
    let (number, [value, _]) = answer(carried);
    if let Some(room) = out.first_chunk_mut() {
        *room = [value];
    }
    number
}

/// Carries a certificate, with the answer for a host in C.
#[inline(never)]
pub fn certificate(direction: Direction, files: Files, bytes: &mut [u8], out: &mut [u64]) -> u32 {
    let carried = read_pair(direction, files).and_then(|()| {
        let (job, certificate) = files;
        let members = Shapes::new(certificate, 1, direction == Direction::Down, job[1]);
        if direction == Direction::Down {
            check_job_kept(job)?;
            check_facts_kept(File::Certificate, members.clone())?;
        }
        write(direction, certificate, members, bytes)
    });
    let (number, told) = answer(carried);
    if let Some(room) = out.first_chunk_mut() {
        *room = told;
    }
    number
}

/// The number that is returned and the values that are told.
fn answer(carried: Result<usize, Refused>) -> Refused {
    match carried {
        Ok(filled) => (0, [filled as u64, 0]),
        Err(refused) => refused,
    }
}

fn refused_in(file: File, refusal: Refusal) -> Refused {
    (refusal.number, [refusal.place as u64, file as u64])
}

fn read_job(direction: Direction, job: &[u8]) -> Result<(), Refused> {
    let read = match direction {
        Direction::Up => read_job_as::<Located>(job).map(|_| ()),
        Direction::Down => read_job_as::<Valued>(job).map(|_| ()),
    };
    read.map_err(|refusal| refused_in(File::Job, refusal))
}

fn read_job_as<M: Owing>(job: &[u8]) -> Result<Job<M>, Refusal> {
    check_length(job, 1)?;
    let mut reader = Reader::new(job, 3, 4);
    Job::read(&mut reader).map_err(|Stopped| reader.refusal)
}

/// Reads a job and all of its certificate.
fn read_pair(direction: Direction, files: Files) -> Result<(), Refused> {
    let read = match direction {
        Direction::Up => read_pair_as::<Located>(files),
        Direction::Down => read_pair_as::<Valued>(files),
    };
    read.map_err(|refusal| {
        let file = match refusal.number {
            2 | 6 | 7 | 10 => File::Certificate,
            _ => File::Job,
        };
        refused_in(file, refusal)
    })
}

fn read_pair_as<M: Owing>((job, certificate): Files) -> Result<(), Refusal> {
    check_length(job, 1)?;
    check_length(certificate, 2)?;
    let mut job = read_job_as::<M>(job)?;
    // 8 isn't judged.
    job.start = NO_STATE;
    let mut covers = Covers::new(certificate);
    read_certificate(&mut covers, &job).map_err(|Stopped| covers.reader.refusal)
}

/// A member, for which predecessors have to be covered.
trait Owing: Member {
    /// Visits the numbers of cells of its predecessors by a job's transitions.
    fn each_before(
        &self,
        job: &Job<Self>,
        visit: impl FnMut(u8) -> Result<(), Stopped>,
    ) -> Result<(), Stopped>;
}

impl Owing for Located {
    fn each_before(
        &self,
        job: &Job<Located>,
        mut visit: impl FnMut(u8) -> Result<(), Stopped>,
    ) -> Result<(), Stopped> {
        for transition in job.leading_to(self.state) {
            let operation = transition.operation;
            predecessor::each_predecessor(&self.shape, operation, &mut |before| {
                visit(before.cells)
            })?;
        }
        Ok(())
    }
}

impl Owing for Valued {
    fn each_before(
        &self,
        job: &Job<Valued>,
        mut visit: impl FnMut(u8) -> Result<(), Stopped>,
    ) -> Result<(), Stopped> {
        let Located { state, shape } = self.located();
        let facts = self.facts();
        if facts.clash() {
            return Ok(());
        }
        for transition in job.leading_to(*state) {
            let operation = transition.operation;
            values::predecessor::each_predecessor(shape, &facts, operation, &mut |before, _| {
                visit(before.cells)
            })?;
        }
        Ok(())
    }
}

fn read_certificate<M: Owing>(covers: &mut Covers<M>, job: &Job<M>) -> Result<(), Stopped> {
    let version = M::VERSION as u16;
    covers.reader.number(version, version)?;
    covers.reader.place = 0;
    covers.read_members(job)?;
    let Covers {
        reader, members, ..
    } = covers;
    let mut read_cover = |cells| read_cover(reader, members, cells);
    for bad in &job.forbidden {
        read_cover(bad.located().shape.cells)?;
    }
    for member in members.iter() {
        member.each_before(job, &mut read_cover)?;
    }
    reader.end(10)
}

/// Reads the next cover, that of a shape of so many cells.
#[inline(always)]
fn read_cover<M: Member>(reader: &mut Reader, members: &[M], cells: u8) -> Result<(), Stopped> {
    let number = reader.number(0, members.len() as u16 - 1)?;
    let images = members[usize::from(number)].located().shape.cells;
    for _ in 0..images {
        reader.cell(cells)?;
    }
    Ok(())
}

/// The forbidden shapes of a job that was read.
fn forbidden_of(direction: Direction, job: &[u8]) -> Shapes<'_> {
    let (transitions, at) = number(job, AHEAD);
    let place = at + transitions * TRANSITION;
    Shapes::new(job, place, direction == Direction::Down, job[1])
}

/// 21 at the first kind above 7, or number of facts above 0, of a job of version 2.
fn check_job_kept(job: &[u8]) -> Result<(), Refused> {
    let (count, begin) = number(job, AHEAD);
    let transitions = job[begin..][..count * TRANSITION].chunks_exact(TRANSITION);
    let mut kinds = transitions.map(|transition| u64::from(transition[1]));
    if let Some(transition) = kinds.position(|kind| kind > *KINDS.end()) {
        return Err(not_kept(File::Job, begin + transition * TRANSITION + 1));
    }
    check_facts_kept(File::Job, forbidden_of(Direction::Down, job))
}

/// 21 at the first number of facts above 0.
fn check_facts_kept(file: File, mut shapes: Shapes) -> Result<(), Refused> {
    let mut begin = shapes.at;
    while let Some((_, shape)) = shapes.next() {
        if !shape.facts.is_empty() {
            return Err(not_kept(file, begin + 1 + shape.places.len()));
        }
        begin = shapes.at;
    }
    Ok(())
}

#[cold]
fn not_kept(file: File, place: usize) -> Refused {
    refused_in(file, Refusal::at(21, place))
}

/// Writes a file in the other version, where it has room; its shapes have no facts.
fn write(
    direction: Direction,
    file: &[u8],
    mut shapes: Shapes,
    bytes: &mut [u8],
) -> Result<usize, Refused> {
    let needed = match direction {
        Direction::Up => file.len() + shapes.left,
        Direction::Down => file.len() - shapes.left,
    };
    if needed > bytes.len().min(MOST_BYTES) {
        return Err((12, [needed as u64, 0]));
    }
    bytes[..shapes.at].copy_from_slice(&file[..shapes.at]);
    bytes[0] = direction.to() as u8;
    let (mut from, mut to) = (shapes.at, shapes.at);
    while shapes.next().is_some() {
        let kept = match direction.from() {
            Version::One => shapes.at - from,
            Version::Two => shapes.at - 1 - from,
        };
        bytes[to..to + kept].copy_from_slice(&file[from..from + kept]);
        from = shapes.at;
        to += kept;
        if direction == Direction::Up {
            bytes[to] = 0;
            to += 1;
        }
    }
    bytes[to..needed].copy_from_slice(&file[from..]);
    Ok(needed)
}
