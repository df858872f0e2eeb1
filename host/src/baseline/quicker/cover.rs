//! The test of a cover.

use super::places::{slot, Places};
use crate::baseline::checker;
use crate::baseline::reader::{Reader, Stopped};
use crate::baseline::shape::{Located, CELL, DANGLING, NOWHERE, NULL};

/// The members, and the rest of the certificate.
pub struct Covers<'r, 'a> {
    pub reader: &'r mut Reader<'a>,
    pub rest: &'a [u8],
    pub members: &'r [Places],
    pub variables: usize,
    pub count: u64,
    pub links: u64,
}

/// The code of the member's cell that has its image at a code. Paths may pass what is free; nothing
/// is at a code that was passed, nor at nowhere.
type Codes = [u8; 32];

const FREE: u8 = 0;
const PASSED: u8 = u8::MAX;

const NO_CODES: Codes = {
    let mut codes = [FREE; 32];
    codes[NOWHERE as usize] = PASSED;
    codes[NULL as usize] = NULL;
    codes[DANGLING as usize] = DANGLING;
    codes
};

impl<'a> Covers<'_, 'a> {
    /// The place of what is left of the certificate.
    pub fn place(&self) -> usize {
        self.reader.bytes.len() - self.rest.len()
    }

    /// Reads the next cover and tests that it holds for a shape at a state.
    #[inline(always)]
    pub fn check(&mut self, state: u8, covered: &Places) -> Result<(), Stopped> {
        match self.quick(state, covered) {
            Some((rest, links)) => {
                self.rest = rest;
                self.count += 1;
                self.links += links;
                Ok(())
            }
            None => self.check_exactly(state, covered),
        }
    }

    /// The same by the other baseline, which knows why a cover is refused.
    #[cold]
    #[inline(never)]
    fn check_exactly(&mut self, state: u8, covered: &Places) -> Result<(), Stopped> {
        self.reader.place = self.place();
        let members = self.members.iter().map(|member| Located {
            state: member.state(),
            shape: member.to_shape(self.variables),
        });
        let mut covers = checker::Covers {
            reader: *self.reader,
            members: members.collect(),
            variables: self.variables,
            count: self.count,
            links: self.links,
        };
        let checked = covers.check(state, &covered.to_shape(self.variables));
        *self.reader = covers.reader;
        self.rest = self.reader.rest();
        self.count = covers.count;
        self.links = covers.links;
        checked
    }

    /// What is left behind the next cover, and the links followed, if it is plain that it holds.
    #[inline(always)]
    fn quick(&self, state: u8, covered: &Places) -> Option<(&'a [u8], u64)> {
        let (number, rest) = match self.rest {
            [low @ 0..128, rest @ ..] => (usize::from(*low), rest),
            [low, high @ 1..4, rest @ ..] => {
                let number = usize::from(*low) + 128 * usize::from(*high) - 128;
                (number, rest)
            }
            _ => return None,
        };
        let member = self.members.get(number)?;
        let (images, rest) = rest.split_at_checked(usize::from(member.cells()) % 16)?;
        if member.state() != state {
            return None;
        }
        Some((rest, embeds(member, images, covered)?))
    }
}

/// The links followed if these images, if they are cells, embed a member in a shape.
#[inline(always)]
fn embeds(member: &Places, images: &[u8], covered: &Places) -> Option<u64> {
    let mut codes = NO_CODES;
    let cells = covered.cells() % 16;
    for (&image, code) in images.iter().zip(CELL..) {
        if image >= cells || codes[usize::from(CELL + image)] != FREE {
            return None;
        }
        codes[usize::from(CELL + image)] = code;
    }
    match variables_agree(member, covered, &codes) {
        true => follow(member, images, covered, &mut codes),
        false => None,
    }
}

/// Whether the variables that a member places stand at the images.
#[inline(always)]
fn variables_agree(member: &Places, covered: &Places, codes: &Codes) -> bool {
    let mut placed = u32::from(member.placed());
    while placed != 0 {
        let slot = slot(1 + placed.trailing_zeros() as usize);
        if codes[usize::from(covered.at(slot)) % 32] != member.at(slot) {
            return false;
        }
        placed &= placed - 1;
    }
    true
}

/// The links followed if the paths of a member's links end at the images, and no two meet.
#[inline(always)]
fn follow(member: &Places, images: &[u8], covered: &Places, codes: &mut Codes) -> Option<u64> {
    let mut links = 0;
    for (&image, &link) in images.iter().zip(member.links()) {
        if link == NOWHERE {
            continue;
        }
        let source = usize::from(CELL) + usize::from(image) % 16;
        let mut place = usize::from(covered.at(source)) % 32;
        links += 1;
        while codes[place] == FREE {
            codes[place] = PASSED;
            place = usize::from(covered.at(place)) % 32;
            links += 1;
        }
        if codes[place] != link {
            return None;
        }
    }
    Some(links)
}
