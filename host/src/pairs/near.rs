//! Covers that hold, or nearly: members that are parts of the covered shape. Where two of their paths
//! meet, everything else is as it should be.

use super::codes::{some_index, some_numbers, Codes};
use super::Pair;
use crate::random::Random;
use crate::reference::certificate::Cover;
use crate::reference::job::Job;
use crate::reference::shape::MOST_CELLS;
use crate::reference::version::Version;

/// The state of all shapes; the start is another.
const STATE: u64 = 1;

/// The most cells of a member.
const MOST_IMAGES: usize = 6;

/// Forbidden shapes, each with a member of its own that is to cover it, and no transitions.
pub fn near(random: &mut Random) -> Pair {
    let variables = 1 + random.below(3);
    let shapes = 1 + random.below(3);
    let mut forbidden = Vec::new();
    let mut members = Vec::new();
    let mut covers = Vec::new();
    for member in 0..shapes {
        let cells = random.below(MOST_CELLS as usize + 1);
        let covered = Codes::random(random, variables, cells);
        let count = random.below(cells.min(MOST_IMAGES) + 1);
        let mut images = some_numbers(random, cells, count);
        let mut part = covered.part(random, &images);
        if random.once_in(6) {
            match random.below(3) {
                0 => part.change_variable(random),
                1 => part.change_link(random),
                _ => change_image(random, &mut images, cells),
            }
        }
        forbidden.push(covered.located(STATE));
        members.push(part.located(STATE));
        covers.push(Cover { member, images });
    }
    let job = Job {
        version: Version::One,
        variables: variables as u64,
        states: 2,
        start: 0,
        transitions: Vec::new(),
        forbidden,
    };
    Pair::of(&job, members, covers)
}

/// Makes another of so many cells an image, if there are images.
fn change_image(random: &mut Random, images: &mut [usize], cells: usize) {
    if !images.is_empty() {
        images[some_index(random, images.len())] = random.below(cells);
    }
}
