//! Reading numbers in turn, with a short way for those of one byte.

use super::shape::{Located, Shape};
use crate::reference::operation::{range_of_a, range_of_b, Operation};
use crate::reference::shape::MOST_CELLS;
use crate::reference::version::Version;
use crate::verdict::Refusal;

/// Reading stopped; the reader's refusal says why.
#[derive(Clone, Copy, Debug, PartialEq, Eq)]
pub struct Stopped;

#[derive(Clone, Copy)]
pub struct Reader<'a> {
    pub bytes: &'a [u8],
    pub place: usize,
    unreadable: u32,
    out_of_range: u32,
    /// Meaningful once reading has stopped.
    pub refusal: Refusal,
}

impl<'a> Reader<'a> {
    pub fn new(bytes: &'a [u8], unreadable: u32, out_of_range: u32) -> Reader<'a> {
        Reader {
            bytes,
            place: 0,
            unreadable,
            out_of_range,
            refusal: Refusal::at(unreadable, 0),
        }
    }

    /// The bytes from the place on.
    pub fn rest(&self) -> &'a [u8] {
        &self.bytes[self.place..]
    }

    #[cold]
    pub fn refuse<T>(&mut self, number: u32, place: usize) -> Result<T, Stopped> {
        self.refusal = Refusal::at(number, place);
        Err(Stopped)
    }

    /// The refusal of a number that reads but breaks its range.
    #[cold]
    pub fn refuse_range<T>(&mut self, place: usize) -> Result<T, Stopped> {
        self.refuse(self.out_of_range, place)
    }

    /// The next number, from lowest to highest.
    #[inline]
    pub fn number(&mut self, lowest: u16, highest: u16) -> Result<u16, Stopped> {
        if let Some(&byte) = self.bytes.get(self.place) {
            let number = u16::from(byte);
            if number < 128 && lowest <= number && number <= highest {
                self.place += 1;
                return Ok(number);
            }
        }
        self.longer_number(lowest, highest)
    }

    /// The next number, which takes two or three bytes, or a refusal.
    #[cold]
    fn longer_number(&mut self, lowest: u16, highest: u16) -> Result<u16, Stopped> {
        let Some((number, next)) = self.number_at_place() else {
            return self.refuse(self.unreadable, self.place);
        };
        if number < lowest || number > highest {
            return self.refuse_range(self.place);
        }
        self.place = next;
        Ok(number)
    }

    fn number_at_place(&self) -> Option<(u16, usize)> {
        let place = self.place;
        let byte = |at: usize| self.bytes.get(at).map(|&byte| u16::from(byte));
        let low = byte(place)?;
        if low < 128 {
            return Some((low, place + 1));
        }
        let middle = byte(place + 1)?;
        let number = low % 128 + middle % 128 * 128;
        match middle {
            0 => None,
            1..=127 => Some((number, place + 2)),
            _ => match byte(place + 2)? {
                high @ 1..=3 => Some((number + high * 128 * 128, place + 3)),
                _ => None,
            },
        }
    }

    /// The next number, a cell below so many.
    #[inline]
    pub fn cell(&mut self, cells: u8) -> Result<u8, Stopped> {
        match self.bytes.get(self.place) {
            Some(&byte) if byte < cells => {
                self.place += 1;
                Ok(byte)
            }
            _ => self.no_cell(),
        }
    }

    /// The refusal of a number that is no cell: there is none from 1 to 0.
    #[cold]
    fn no_cell(&mut self) -> Result<u8, Stopped> {
        self.longer_number(1, 0).map(|_| 0)
    }

    /// The version of a certificate, which has to be the job's.
    #[inline(always)]
    pub fn version(&mut self, of_job: Version) -> Result<(), Stopped> {
        let number = self.number(Version::One as u16, Version::Two as u16)?;
        match number == of_job as u16 {
            true => Ok(()),
            false => self.refuse(20, 0),
        }
    }

    #[inline(always)]
    pub fn operation(&mut self, version: Version, variables: u16) -> Result<Operation, Stopped> {
        let kinds = version.kinds();
        let kind = self.number(*kinds.start() as u16, *kinds.end() as u16)?;
        let range = range_of_a(kind.into(), variables.into());
        let a = self.number(*range.start() as u16, *range.end() as u16)?;
        let range = range_of_b(kind.into(), variables.into());
        let b = self.number(*range.start() as u16, *range.end() as u16)?;
        Ok(Operation {
            kind: kind.into(),
            a: a.into(),
            b: b.into(),
        })
    }

    pub fn located(&mut self, variables: u16, states: u16) -> Result<Located, Stopped> {
        let state = self.number(0, states - 1)? as u8;
        let mut shape = Shape::EMPTY;
        shape.cells = self.number(0, MOST_CELLS as u16)? as u8;
        let highest = shape.fresh() - 1;
        self.codes(&mut shape.variables[1..=usize::from(variables)], highest)?;
        self.codes(&mut shape.links[..usize::from(shape.cells)], highest)?;
        Ok(Located { state, shape })
    }

    /// Fills codes of places up to the highest, which takes one byte.
    fn codes(&mut self, codes: &mut [u8], highest: u8) -> Result<(), Stopped> {
        let end = self.place + codes.len();
        match self.bytes.get(self.place..end) {
            Some(bytes) if bytes.iter().all(|&byte| byte <= highest) => {
                codes.copy_from_slice(bytes);
                self.place = end;
            }
            _ => {
                for code in codes {
                    *code = self.number(0, highest.into())? as u8;
                }
            }
        }
        Ok(())
    }

    /// Nothing may be left; else this refusal falls at the first byte left.
    pub fn end(&mut self, number: u32) -> Result<(), Stopped> {
        match self.place < self.bytes.len() {
            true => self.refuse(number, self.place),
            false => Ok(()),
        }
    }
}
