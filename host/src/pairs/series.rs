//! Covers that follow each other closely, so that what one leaves would tell in the next: images of
//! which one is another than in the last cover, and covers of many cells followed by ones of few.

use super::codes::{some_index, some_numbers, Codes};
use super::{anything, Pair};
use crate::random::Random;
use crate::reference::certificate::Cover;
use crate::reference::cover::{owed, Reason};
use crate::reference::embedding::embeds;
use crate::reference::job::{Job, Located, Transition};
use crate::reference::operation::{Operation, DIFFERENT};
use crate::reference::shape::MOST_CELLS;
use crate::reference::version::Version;

/// No shape is at the start.
const START: u64 = 0;
const STATE: u64 = 1;

/// How many covers with changed images are tried.
const TRIES: usize = 16;

/// The members of a series by size, large and small in turn.
const MEMBERS: usize = 4;

/// The pair of a turn: a series of either kind.
pub fn series(random: &mut Random, turn: usize) -> Pair {
    match turn % 2 {
        0 => by_one(random),
        _ => by_size(random),
    }
}

/// One shape, forbidden again and again. Its covers hold, but now and then the last has the images of
/// the one before.
fn by_one(random: &mut Random) -> Pair {
    let variables = 1 + random.below(3);
    let cells = 2 + random.below(MOST_CELLS as usize - 1);
    let codes = Codes::random(random, variables, cells);
    let covered = codes.located(STATE);
    let count = 1 + random.below(cells - 1);
    let mut images = some_numbers(random, cells, count);
    let mut members = vec![anything(STATE, variables)];
    let mut covers = vec![Cover {
        member: 0,
        images: Vec::new(),
    }];
    for _ in 0..TRIES {
        let part = codes.part(random, &images).located(STATE);
        if embeds(&part.shape, &covered.shape, &images) {
            covers.push(Cover {
                member: members.len(),
                images: images.clone(),
            });
            members.push(part);
        }
        let others: Vec<usize> = (0..cells).filter(|cell| !images.contains(cell)).collect();
        images[some_index(random, count)] = random.pick(&others);
    }
    if covers.len() > 2 && random.once_in(3) {
        let last = covers.len() - 1;
        covers[last].images = covers[last - 1].images.clone();
    }
    let job = job(variables, Vec::new(), vec![covered; covers.len()]);
    Pair::of(&job, members, covers)
}

/// Large members and small ones in turn. What precedes one is covered by itself where that holds and,
/// now and then, by one that covers anything.
fn by_size(random: &mut Random) -> Pair {
    let variables = 2 + random.below(2);
    let both_nowhere = random.once_in(16);
    let mut members = vec![anything(STATE, variables)];
    for number in 0..MEMBERS {
        let cells = match number % 2 {
            0 => MOST_CELLS as usize,
            _ => random.below(3),
        };
        let mut codes = Codes::random(random, variables, cells);
        codes.variables[0] = 0;
        if both_nowhere {
            codes.variables[1] = 0;
        }
        members.push(codes.located(STATE));
    }
    let different = Transition {
        from: STATE,
        operation: Operation {
            kind: DIFFERENT,
            a: 1,
            b: 2,
        },
        to: STATE,
    };
    let job = job(variables, vec![different], vec![members[1].clone()]);
    let mut cover = |covered: &Located, member: usize| {
        let shape = &members[member].shape;
        let images: Vec<usize> = (0..shape.cells()).collect();
        match embeds(shape, &covered.shape, &images) && !random.once_in(4) {
            true => Cover { member, images },
            false => Cover {
                member: 0,
                images: Vec::new(),
            },
        }
    };
    let covers = owed(&job, members.iter())
        .map(|owed| match owed.reason {
            Reason::Forbidden(_) => cover(&owed.covered, 1),
            Reason::Before { member, .. } => cover(&owed.covered, member),
        })
        .collect();
    Pair::of(&job, members, covers)
}

fn job(variables: usize, transitions: Vec<Transition>, forbidden: Vec<Located>) -> Job {
    Job {
        version: Version::One,
        variables: variables as u64,
        states: 2,
        start: START,
        transitions,
        forbidden,
    }
}

#[cfg(test)]
mod tests {
    use super::*;
    use crate::baseline::embedding::{follow, ENDS, NO_IMAGES};
    use crate::baseline::shape::{Shape as Array, CELL};
    use crate::reference::certificate::read_members;
    use crate::reference::checker::check;
    use crate::reference::cover::{read_covers, CoverRead};
    use crate::reference::reader::Reader;
    use crate::verdict::Verdict;

    /// Covers with images are many in a pair, most pairs are accepted, and some are refused.
    #[test]
    fn series_are_long_and_mostly_accepted() {
        let mut random = Random::new(1);
        let verdicts: Vec<Verdict> = (0..400)
            .map(|turn| series(&mut random, turn))
            .map(|pair| check(&pair.job, &pair.certificate))
            .collect();
        let counts = |verdict: &Verdict| match verdict {
            Verdict::Accepted(counts) => Some(counts.covers),
            Verdict::Refused(_) => None,
        };
        let accepted: Vec<u64> = verdicts.iter().filter_map(counts).collect();
        assert!(accepted.len() > 300, "{}", accepted.len());
        assert!(accepted.len() < 400);
        assert!(accepted.iter().sum::<u64>() > 10 * accepted.len() as u64);
    }

    /// In many pairs a cover that holds would fail if the images of those before were marked as well.
    #[test]
    fn marks_left_standing_would_tell() {
        let mut random = Random::new(2);
        for kind in 0..2 {
            let pairs = (0..100).map(|_| series(&mut random, kind));
            let told = pairs.filter(left_standing_tells).count();
            assert!(told > 20, "{kind}: {told}");
        }
    }

    fn left_standing_tells(pair: &Pair) -> bool {
        let job = Job::read(&pair.job).unwrap();
        let mut reader = Reader::of_certificate(&pair.certificate);
        let members = read_members(&mut reader, &job).unwrap();
        let mut covers = read_covers(&mut reader, &job, &members).map_while(Result::ok);
        let mut left = ENDS;
        covers.any(|read| {
            let marks = marks(&read.cover.images);
            left |= marks;
            passes(&read, marks) && !passes(&read, left)
        })
    }

    fn marks(images: &[usize]) -> u32 {
        let bits = images.iter().map(|image| 1 << (usize::from(CELL) + image));
        bits.fold(ENDS, |marks, bit: u32| marks | bit)
    }

    fn passes(read: &CoverRead, marks: u32) -> bool {
        let mut images = NO_IMAGES;
        for (cell, &image) in read.cover.images.iter().enumerate() {
            images[usize::from(CELL) + cell] = CELL + image as u8;
        }
        let [member, covered] =
            [&read.member, &read.owed.covered].map(|at| Array::of_reference(&at.shape));
        follow(&member, &covered, &images, marks).is_some()
    }
}
