//! The versions of jobs and certificates.

use std::ops::RangeInclusive;

use super::operation::{KINDS, VALUE_KINDS};

#[derive(Clone, Copy, Debug, PartialEq, Eq)]
pub enum Version {
    /// Cells have no values.
    One = 1,
    /// Cells may have values, and shapes facts on them.
    Two = 2,
}

impl Version {
    pub const NUMBERS: RangeInclusive<u64> = 1..=2;

    /// The version with one of these numbers.
    pub fn of_number(number: u64) -> Version {
        match number {
            1 => Version::One,
            _ => Version::Two,
        }
    }

    pub fn number(self) -> u64 {
        self as u64
    }

    /// The kinds of operations that a job may have.
    pub fn kinds(self) -> RangeInclusive<u64> {
        match self {
            Version::One => KINDS,
            Version::Two => *KINDS.start()..=*VALUE_KINDS.end(),
        }
    }
}

/// Which way files are carried between the versions.
#[derive(Clone, Copy, Debug, PartialEq, Eq)]
pub enum Direction {
    /// From version 1 to version 2.
    Up,
    /// From version 2 to version 1.
    Down,
}

impl Direction {
    pub const BOTH: [Direction; 2] = [Direction::Up, Direction::Down];

    /// The version that files have before.
    pub fn from(self) -> Version {
        match self {
            Direction::Up => Version::One,
            Direction::Down => Version::Two,
        }
    }

    /// The version that they have afterwards.
    pub fn to(self) -> Version {
        self.back().from()
    }

    /// The other way.
    pub fn back(self) -> Direction {
        match self {
            Direction::Up => Direction::Down,
            Direction::Down => Direction::Up,
        }
    }
}
