//! Certificates: members, and covers in the order of what they cover.

use super::job::{Job, Located};
use super::number;
use super::reader::Reader;
use super::version::Version;
use crate::verdict::Refusal;

pub const MOST_MEMBERS: u64 = 512;

/// A member that embeds in a covered shape, by one image for each of its cells.
#[derive(Clone, Debug, PartialEq, Eq)]
pub struct Cover {
    pub member: usize,
    pub images: Vec<usize>,
}

#[derive(Clone, Debug, PartialEq, Eq)]
pub struct Certificate {
    pub version: Version,
    pub members: Vec<Located>,
    pub covers: Vec<Cover>,
}

impl Certificate {
    /// The bytes of the certificate.
    pub fn bytes(&self) -> Vec<u8> {
        let mut numbers = vec![self.version.number(), self.members.len() as u64];
        let located = self.members.iter();
        numbers.extend(located.flat_map(|member| member.numbers(self.version)));
        for cover in &self.covers {
            numbers.push(cover.member as u64);
            numbers.extend(cover.images.iter().map(|&image| image as u64));
        }
        numbers.into_iter().flat_map(number::bytes_of).collect()
    }
}

/// A member and the place of its first byte.
pub struct MemberRead {
    pub located: Located,
    pub place: usize,
}

/// Reads the version, which has to be the job's, and the members.
pub fn read_members(reader: &mut Reader, job: &Job) -> Result<Vec<MemberRead>, Refusal> {
    let version = reader.version()?;
    if version != job.version {
        return Err(Refusal::at(20, 0));
    }
    let count = reader.number(1..=MOST_MEMBERS)?;
    let mut member = || {
        Ok(MemberRead {
            place: reader.place,
            located: Located::read(reader, version, job.variables, job.states)?,
        })
    };
    (0..count).map(|_| member()).collect()
}
