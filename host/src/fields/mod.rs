//! The numbers of a job and of a certificate as a person reads them: in groups, each with what it says, up
//! to the first number that can't be read or is out of its range, which is told.

mod walk;

use std::fmt;
use std::ops::Range;

use crate::reference::job::Located;
use crate::routine::Routine;
use walk::Walk;

/// A number and the place of its first byte.
#[derive(Clone, Copy, Debug, PartialEq, Eq)]
pub struct Field {
    pub place: usize,
    pub number: u64,
}

/// Numbers that belong together, as those of a transition, a shape or a cover, with what they say.
#[derive(Debug)]
pub struct Group {
    pub fields: Vec<Field>,
    pub says: String,
}

/// The first number that can't be read or is out of its range.
#[derive(Debug)]
pub struct Fault {
    pub place: usize,
    /// What the number is to be, as `the kind of transition 3`.
    pub what: String,
    /// Whether it is a number of a cover.
    pub is_of_cover: bool,
    pub why: Why,
}

/// Why a number is a fault.
#[derive(Debug, PartialEq, Eq)]
pub enum Why {
    /// The file ends, maybe within the number.
    Ends,
    /// It is above 65,535 or longer than needed.
    NoNumber,
    /// It is out of this range.
    Outside(u64, Range<u64>),
    /// It belongs to a fact that doesn't rise.
    Falls,
}

/// The groups of a file, and where they end.
#[derive(Debug)]
pub struct Fields {
    pub groups: Vec<Group>,
    /// The place behind the last number of the groups.
    pub end: usize,
    pub fault: Option<Fault>,
}

/// A certificate's groups, and what could be read of it.
pub struct CertificateFields {
    pub fields: Fields,
    pub members: Vec<Located>,
    /// The places of the covers that could be read.
    pub covers: Vec<usize>,
}

/// The groups of a job, with the names of its routine if it has some.
pub fn of_job(bytes: &[u8], routine: Option<&Routine>) -> Fields {
    let mut walk = Walk::new(bytes, routine);
    let fault = walk.job().err();
    walk.finish(fault)
}

/// The groups of a certificate for the job of a routine.
pub fn of_certificate(bytes: &[u8], routine: &Routine) -> CertificateFields {
    let mut walk = Walk::new(bytes, Some(routine));
    let mut members = Vec::new();
    let mut covers = Vec::new();
    let fault = walk
        .members(&routine.job, &mut members)
        .and_then(|()| walk.covers(&routine.job, &members, &mut covers))
        .err();
    CertificateFields {
        fields: walk.finish(fault),
        members,
        covers,
    }
}

impl fmt::Display for Fault {
    fn fmt(&self, f: &mut fmt::Formatter) -> fmt::Result {
        let Fault {
            place, what, why, ..
        } = self;
        match why {
            Why::Ends => write!(f, "{what} is missing: the file ends at byte {place}"),
            Why::NoNumber => write!(
                f,
                "{what}, at byte {place}, is no number: above 65,535, or longer than needed"
            ),
            Why::Outside(number, range) if range.is_empty() => {
                write!(f, "{what}, at byte {place}, is {number}, but no number is right here")
            }
            Why::Outside(number, Range { start, end }) if start + 1 == *end => {
                write!(f, "{what}, at byte {place}, is {number}; it has to be {start}")
            }
            Why::Outside(number, Range { start, end }) => {
                let last = end - 1;
                write!(f, "{what}, at byte {place}, is {number}; it has to be {start} to {last}")
            }
            Why::Falls => write!(
                f,
                "{what}, at byte {place}: facts have to rise, and this one comes ahead of the one before it \
                 or is the same"
            ),
        }
    }
}
