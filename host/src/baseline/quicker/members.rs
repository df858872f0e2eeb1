//! Reading the members of a certificate.

use super::places::Places;
use super::words::{all_below, word_at};
use crate::baseline::job::{Entry, Job};
use crate::baseline::reader::{Reader, Stopped};
use crate::baseline::shape::{CELL, NULL};
use crate::reference::certificate::MOST_MEMBERS;
use crate::reference::shape::MOST_CELLS;
use crate::reference::version::Version;

/// The most bytes of a member's entry: state, cells, eight variables, twelve links.
const ENTRY: usize = 22;

/// Reads the members, and refuses one that the empty heap satisfies at the start.
#[inline(always)]
pub fn read_members(reader: &mut Reader, job: &Job<Places>) -> Result<Vec<Places>, Stopped> {
    reader.version(Places::VERSION)?;
    let count = reader.number(1, MOST_MEMBERS as u16)?;
    let mut members = vec![Places::EMPTY; count.into()];
    let mut satisfied = None;
    for member in &mut members {
        let place = reader.place;
        fill(member, reader, job.variables, job.states)?;
        if member.state() == job.start && member.cells() == 0 && !member.has_variable_at(NULL) {
            satisfied = satisfied.or(Some(place));
        }
    }
    match satisfied {
        Some(place) => reader.refuse(8, place),
        None => Ok(members),
    }
}

impl Entry for Places {
    const VERSION: Version = Version::One;

    fn read(reader: &mut Reader, variables: u16, states: u16) -> Result<Places, Stopped> {
        let mut places = Places::EMPTY;
        fill(&mut places, reader, variables, states)?;
        Ok(places)
    }
}

/// Fills in the next shape at a state.
#[inline(always)]
fn fill(
    places: &mut Places,
    reader: &mut Reader,
    variables: u16,
    states: u16,
) -> Result<(), Stopped> {
    match fill_quickly(places, reader.rest(), variables.into(), states) {
        Some(length) => reader.place += length,
        None => places.fill_with(&reader.located(variables, states)?),
    }
    Ok(())
}

/// Fills in the shape at the start of some bytes and gives its length, if it is plain that its
/// numbers are in range.
#[inline(always)]
fn fill_quickly(places: &mut Places, bytes: &[u8], variables: usize, states: u16) -> Option<usize> {
    let [state, cells, codes @ ..] = bytes.first_chunk::<ENTRY>()?;
    if u16::from(*state) >= states || u64::from(*cells) > MOST_CELLS {
        return None;
    }
    let length = variables + usize::from(*cells);
    let word = word_at(codes, 0);
    let is_in_range = match length {
        1..=8 => all_below(word << (64 - 8 * length), CELL + cells),
        _ => codes.get(..length)?.iter().all(|&code| code < CELL + cells),
    };
    if !is_in_range {
        return None;
    }
    let mask = u64::MAX >> (64 - 8 * variables);
    let links = codes.get(variables..)?.first_chunk()?;
    places.fill(*state, *cells, word & mask, links);
    Some(2 + length)
}
