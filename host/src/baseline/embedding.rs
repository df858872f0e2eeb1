//! The parts of the test of one cover, and what it breaks where it fails.

use std::ops::Range;

use super::shape::{Located, Shape, CELL, CELLS, DANGLING, NOWHERE, NULL};
use crate::verdict::{Broken, Rule};

/// A map from codes to codes: # to #, * to *, cells to their images.
pub type Images = [u8; CELL as usize + CELLS];

/// The map before any cell has an image.
pub const NO_IMAGES: Images = {
    let mut images = [NOWHERE; CELL as usize + CELLS];
    images[NULL as usize] = NULL;
    images[DANGLING as usize] = DANGLING;
    images
};

/// The codes at which every walk stops: nowhere, # and *.
pub const ENDS: u32 = 0b111;

/// Whether each of so many variables that `member` places stands at the image in `covered`.
#[inline(always)]
pub fn variables_agree(member: &Shape, covered: &Shape, images: &Images, variables: usize) -> bool {
    let here = &member.variables[1..=variables];
    let there = &covered.variables[1..=variables];
    let mut pairs = here.iter().zip(there);
    pairs.all(|(&here, &there)| agrees(here, there, images))
}

/// Whether a variable that stands at a place, if any, stands at the image.
#[inline(always)]
fn agrees(here: u8, there: u8, images: &Images) -> bool {
    here == NOWHERE || images[usize::from(here)] == there
}

/// Paths that were followed.
pub struct Followed {
    /// The cells strictly between, a bit for each.
    pub passed: u32,
    /// How many links were followed.
    pub links: u32,
}

/// Follows the paths of the links whose ends have images; nothing where one misses or two meet. The
/// marks are the images and [`ENDS`].
#[inline(always)]
pub fn follow(member: &Shape, covered: &Shape, images: &Images, marks: u32) -> Option<Followed> {
    follow_from(0..member.cells.into(), member, covered, images, marks)
}

/// The same for the links of some cells.
#[inline(always)]
fn follow_from(
    cells: Range<usize>,
    member: &Shape,
    covered: &Shape,
    images: &Images,
    marks: u32,
) -> Option<Followed> {
    let mut passed = 0;
    let mut links = 0;
    let first = usize::from(CELL) + cells.start;
    for (cell, &link) in member.links[cells].iter().enumerate() {
        let source = images[first + cell];
        let target = images[usize::from(link)];
        if source == NOWHERE || target == NOWHERE {
            continue;
        }
        let mut place = covered.link_of(source);
        links += 1;
        while marks >> place & 1 == 0 {
            // Passed before: on another path, or on a ring without an image.
            if passed >> place & 1 == 1 {
                return None;
            }
            passed |= 1 << place;
            place = covered.link_of(place);
            links += 1;
        }
        if place != target {
            return None;
        }
    }
    Some(Followed { passed, links })
}

/// The first rule that is broken by a cover which doesn't hold, at the lowest cell or variable.
#[cold]
#[inline(never)]
pub fn broken(
    member: &Located,
    state: u8,
    covered: &Shape,
    images: &Images,
    variables: usize,
) -> Broken {
    let Located { state: own, shape } = member;
    let at = |rule, name: usize| Broken {
        rule,
        name: name as u8,
    };
    if *own != state {
        return at(Rule::State, 0);
    }
    let cells = usize::from(shape.cells);
    let sources = &images[usize::from(CELL)..][..cells];
    let (marks, twice) = sources.iter().fold((ENDS, 0), |(marks, twice), image| {
        (marks | 1 << image, twice | marks & 1 << image)
    });
    if let Some(cell) = sources.iter().position(|image| twice >> image & 1 == 1) {
        return at(Rule::Image, cell);
    }
    let is_elsewhere = |&x: &usize| !agrees(shape.variables[x], covered.variables[x], images);
    if let Some(variable) = (1..=variables).find(is_elsewhere) {
        return at(Rule::Variable, variable);
    }
    let mut passed = 0;
    let mut shared = None;
    for cell in 0..cells {
        let Some(path) = follow_from(cell..cell + 1, shape, covered, images, marks) else {
            return at(Rule::Link, cell);
        };
        if passed & path.passed != 0 {
            shared = shared.or(Some(cell));
        }
        passed |= path.passed;
    }
    at(
        Rule::Path,
        shared.expect("a cover that doesn't hold breaks a rule"),
    )
}
