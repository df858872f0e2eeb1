//! Files that were read, walked again in their bytes. In these all numbers but those of covers take one
//! byte, unless they say how many transitions, members or facts follow.

use super::reader::Reader;

/// Bytes of a job ahead of the number of transitions, and those of a transition.
pub const AHEAD: usize = 4;
pub const TRANSITION: usize = 5;

/// The bytes of a shape ahead of the number of its facts, and those of its facts.
#[derive(PartialEq)]
pub struct Shape<'a> {
    pub places: &'a [u8],
    pub facts: &'a [u8],
}

/// The shapes of a file that stand behind their number, each with its state.
#[derive(Clone)]
pub struct Shapes<'a> {
    bytes: &'a [u8],
    /// The place of the next, or behind the last.
    pub at: usize,
    pub left: usize,
    has_facts: bool,
    variables: usize,
}

impl<'a> Shapes<'a> {
    pub fn new(bytes: &'a [u8], place: usize, has_facts: bool, variables: u8) -> Shapes<'a> {
        let (left, at) = number(bytes, place);
        Shapes {
            bytes,
            at,
            left,
            has_facts,
            variables: variables.into(),
        }
    }
}

impl<'a> Iterator for Shapes<'a> {
    type Item = (u8, Shape<'a>);

    #[inline]
    fn next(&mut self) -> Option<(u8, Shape<'a>)> {
        self.left = self.left.checked_sub(1)?;
        let begin = self.at + 1;
        let state = self.bytes[self.at];
        let end = begin + 1 + self.variables + usize::from(self.bytes[begin]);
        let (count, facts) = match self.has_facts {
            true => number(self.bytes, end),
            false => (0, end),
        };
        self.at = facts + 3 * count;
        let shape = Shape {
            places: &self.bytes[begin..end],
            facts: &self.bytes[facts..self.at],
        };
        Some((state, shape))
    }
}

/// The number at a place of a file that was read, and the place behind it.
#[inline]
pub fn number(bytes: &[u8], place: usize) -> (usize, usize) {
    let mut reader = Reader::new(bytes, 0, 0);
    reader.place = place;
    let number = reader.number(0, u16::MAX);
    (number.map_or(0, usize::from), reader.place)
}
