//! Accepted pairs of version 1 whose certificates are just so long.

use super::{anything, Pair};
use crate::reference::certificate::Cover;
use crate::reference::job::{Job, Transition, MOST_TRANSITIONS};
use crate::reference::number::byte_count;
use crate::reference::operation::{Operation, EQUAL};
use crate::reference::version::Version;

/// All members are at one state, and no transition touches the start.
const BUSY: u64 = 0;
const START: u64 = 1;

/// A member whose number takes two bytes.
const FAR: usize = 128;

/// The pair with so many members, more than 128, and so many bytes in its certificate. Every member owes
/// a cover for each transition, by the first or by one whose number takes a byte more.
pub fn long_pair(members: usize, length: usize) -> Pair {
    let ahead = 1 + byte_count(members as u64) + 3 * members + 1;
    let transitions = ((length - ahead) / members).min(MOST_TRANSITIONS as usize);
    let covers = 1 + members * transitions;
    let far = length - ahead - members * transitions;
    let by = |number: usize| Cover {
        member: if number < far { FAR } else { 0 },
        images: Vec::new(),
    };
    let null_is_null = Transition {
        from: BUSY,
        operation: Operation {
            kind: EQUAL,
            a: 0,
            b: 0,
        },
        to: BUSY,
    };
    let job = Job {
        version: Version::One,
        variables: 1,
        states: 2,
        start: START,
        transitions: vec![null_is_null; transitions],
        forbidden: vec![anything(BUSY, 1)],
    };
    let members = vec![anything(BUSY, 1); members];
    Pair::of(&job, members, (0..covers).map(by).collect())
}

#[cfg(test)]
mod tests {
    use super::*;
    use crate::baseline::checker::check;
    use crate::reference::checker::MOST_BYTES;

    #[test]
    fn certificates_are_as_long_as_wanted() {
        for members in [129, 253, 512] {
            for length in [MOST_BYTES - members, MOST_BYTES - 1, MOST_BYTES] {
                let pair = long_pair(members, length);
                assert_eq!(pair.certificate.len(), length);
                assert_eq!(check(&pair.job, &pair.certificate).number(), 0);
            }
        }
    }
}
