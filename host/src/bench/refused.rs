//! The smallest pair, and pairs that are refused early or late.

use crate::baseline::shape::Shape;
use crate::extremes::{chain, pair};
use crate::pairs::Pair;
use crate::reference::checker::MOST_BYTES;
use crate::reference::operation::{Operation, EQUAL};

/// State 0, new of variable 1, state 1; forbidden there: variable 1 at #.
const JOB: [u8; 14] = [1, 1, 2, 0, 1, 0, 6, 1, 0, 1, 1, 1, 0, 1];
const CERTIFICATE: [u8; 6] = [1, 1, 1, 0, 1, 0];

const SKIP: Operation = Operation {
    kind: EQUAL,
    a: 0,
    b: 0,
};

/// The names of two pairs that are measured with a tally too.
pub const SMALLEST: &str = "the smallest pair, accepted";
pub const FIRST_COVER: &str = "the first cover";

pub fn pairs() -> Vec<(&'static str, Pair)> {
    vec![
        (SMALLEST, of(&JOB, &CERTIFICATE)),
        ("no job", of(&[], &CERTIFICATE)),
        ("no certificate", of(&JOB, &[])),
        ("the job too long", of(&[1; MOST_BYTES + 1], &CERTIFICATE)),
        ("the job's first number", of(&[3], &CERTIFICATE)),
        ("the job's last number", of(&JOB[..13], &CERTIFICATE)),
        ("the certificate's first number", of(&JOB, &[3])),
        (FIRST_COVER, of(&JOB, &[1, 1, 1, 0, 2, 0])),
        ("a large job's last number", large_job_cut()),
        ("the first number after a large job", after_large_job()),
        ("the last of 512 members", start_member()),
        ("the last of 4,865 covers", last_cover()),
    ]
}

fn of(job: &[u8], certificate: &[u8]) -> Pair {
    Pair {
        job: job.to_vec(),
        certificate: certificate.to_vec(),
    }
}

/// 256 transitions, 19 members of twelve cells.
fn large() -> Pair {
    pair(8, &[SKIP], 256, &[chain(&[3]); 19])
}

fn large_job_cut() -> Pair {
    let mut pair = large();
    pair.job.pop();
    pair
}

fn after_large_job() -> Pair {
    of(&large().job, &[3])
}

/// At the start state only the last member is satisfied by the empty heap.
fn start_member() -> Pair {
    let members = [vec![chain(&[3]); 511], vec![Shape::EMPTY]].concat();
    let mut pair = pair(8, &[SKIP], 0, &members);
    pair.job[3] = 0;
    pair
}

fn last_cover() -> Pair {
    let mut pair = large();
    pair.certificate.pop();
    pair.certificate.push(0);
    pair
}

#[cfg(test)]
mod tests {
    use super::*;
    use crate::reference::checker::check;

    #[test]
    fn are_refused_as_their_names_say() {
        let verdicts: Vec<u32> = pairs()
            .iter()
            .map(|(_, pair)| check(&pair.job, &pair.certificate).number())
            .collect();
        assert_eq!(verdicts, [0, 1, 2, 1, 4, 3, 7, 9, 3, 7, 8, 9]);
    }
}
