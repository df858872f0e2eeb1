//! Pairs within the limits of the format that cost a checker most.

use crate::baseline::shape::Shape;
use crate::pairs::Pair;
use crate::reference::certificate::MOST_MEMBERS;
use crate::reference::job::{self, Job, Transition, MOST_TRANSITIONS};
use crate::reference::operation::{Operation, ASSIGN, DELETE, DIFFERENT, EQUAL, LOAD, STORE};
use crate::reference::shape as reference;
use crate::reference::version::Version;
use crate::search::covers::certificate_of;
use crate::search::shape::Located;

/// The state that all members are at; no transition touches the start.
const BUSY: u64 = 0;
const START: u64 = 1;

/// The costly pairs with their names. All are accepted.
pub fn extremes() -> Vec<(&'static str, Pair)> {
    vec![
        ("all dropped", all_dropped()),
        ("a nowhere, b at a linked cell", linked_b()),
        ("both nowhere", both_nowhere()),
        ("one-byte covers", one_byte_covers()),
        ("long paths", long_paths()),
        ("twelve links", twelve_links()),
        ("delete, seven dangle, no cells", deletes(&[])),
        ("delete, seven dangle, chain of 12", deletes(&CHAIN)),
        ("delete, seven dangle, 12 links to *", deletes(&[2; 12])),
        ("delete, seven dangle, an image each", deletes_with_images()),
        (
            "delete, seven dangle, a member each",
            deletes_with_members(),
        ),
    ]
}

fn op(kind: u64, a: usize, b: usize) -> Operation {
    Operation { kind, a, b }
}

/// The pair of a job that goes round at one state, with operations in turn, and these members, the
/// first of which is forbidden.
pub fn pair(
    variables: usize,
    operations: &[Operation],
    transitions: usize,
    members: &[Shape],
) -> Pair {
    let round = operations.iter().cycle().take(transitions);
    let job = Job {
        version: Version::One,
        variables: variables as u64,
        states: 2,
        start: START,
        transitions: round
            .map(|&operation| Transition {
                from: BUSY,
                operation,
                to: BUSY,
            })
            .collect(),
        forbidden: vec![job::Located {
            state: BUSY,
            shape: members[0].to_reference(variables),
        }],
    };
    let located = members.iter().map(|&shape| Located {
        state: BUSY as u8,
        shape: shape.into(),
    });
    Pair {
        job: job.bytes(),
        certificate: certificate_of(&job, &located.collect::<Vec<_>>()).bytes(),
    }
}

pub fn shape(variables: &[u64], links: &[u64]) -> Shape {
    Shape::of_reference(&reference::Shape::of_codes(variables, links))
}

/// The links of twelve cells in a chain to #.
const CHAIN: [u64; 12] = [4, 5, 6, 7, 8, 9, 10, 11, 12, 13, 14, 1];

/// Twelve cells in a chain to #, with some variables placed.
pub fn chain(variables: &[u64]) -> Shape {
    shape(variables, &CHAIN)
}

/// Variables 1 and 2 nowhere, 3 at #, 4 at *: every placing is made in vain.
fn all_dropped() -> Pair {
    let operations = [
        op(DIFFERENT, 1, 1),
        op(EQUAL, 1, 4),
        op(DIFFERENT, 1, 4),
        op(ASSIGN, 1, 4),
        op(LOAD, 1, 3),
        op(LOAD, 1, 4),
        op(STORE, 1, 4),
        op(STORE, 3, 1),
    ];
    let members = vec![chain(&[0, 0, 1, 2]); MOST_MEMBERS as usize];
    pair(8, &operations, MOST_TRANSITIONS as usize, &members)
}

/// Two predecessors each: a where the link stands, or within it.
fn linked_b() -> Pair {
    let covering = shape(&[0, 0, 1], &[]);
    let members = [vec![covering], vec![chain(&[0, 3, 1]); 116]].concat();
    pair(8, &[op(LOAD, 1, 2)], MOST_TRANSITIONS as usize, &members)
}

/// The most predecessors that one transition has.
fn both_nowhere() -> Pair {
    let covering = shape(&[0, 0, 1], &[]);
    let members = [vec![covering], vec![chain(&[0, 0, 1]); 80]].concat();
    pair(8, &[op(DIFFERENT, 1, 2)], 1, &members)
}

/// The most covers that a certificate has room for.
fn one_byte_covers() -> Pair {
    let members = [Shape::EMPTY; 253];
    pair(1, &[op(EQUAL, 0, 0)], MOST_TRANSITIONS as usize, &members)
}

/// One link to follow along twelve cells.
fn long_paths() -> Pair {
    let covering = shape(&[3], &[1]);
    let members = [vec![covering], vec![chain(&[3]); 120]].concat();
    pair(8, &[op(EQUAL, 0, 0)], MOST_TRANSITIONS as usize, &members)
}

/// Twelve images, twelve links and eight variables for each cover.
fn twelve_links() -> Pair {
    let members = [chain(&[3, 4, 5, 6, 7, 8, 9, 14]); 19];
    pair(8, &[op(EQUAL, 0, 0)], MOST_TRANSITIONS as usize, &members)
}

/// All eight variables at *, so that a delete has 128 predecessors, which one member covers.
fn deletes(links: &[u64]) -> Pair {
    let members = [vec![Shape::EMPTY], vec![shape(&[2; 8], links); 122]].concat();
    pair(8, &[op(DELETE, 1, 0)], 4, &members)
}

/// The same where covers have an image: of the cell that the deleted variable stands at.
fn deletes_with_images() -> Pair {
    let covering = shape(&[3], &[0]);
    let members = [vec![covering], vec![chain(&[2; 8]); 60]].concat();
    pair(8, &[op(DELETE, 1, 0)], 4, &members)
}

/// The same where each case has a member of its own, which places all variables.
fn deletes_with_members() -> Pair {
    let whole = shape(&[2; 8], &[]);
    let case = |number: u64| {
        let mut places = [3; 8];
        for (bit, place) in places[1..].iter_mut().enumerate() {
            *place = 2 + (number >> bit & 1);
        }
        shape(&places, &[0])
    };
    let members: Vec<Shape> = std::iter::once(whole).chain((0..128).map(case)).collect();
    pair(8, &[op(DELETE, 1, 0)], 240, &members)
}

#[cfg(test)]
mod tests {
    use super::*;
    use crate::baseline::checker::check;
    use crate::reference::checker::MOST_BYTES;
    use crate::verdict::{Counts, Verdict};

    #[test]
    fn all_are_accepted_and_large() {
        let expected = [
            (512, 1, 12),
            (117, 1 + (3 + 116 * 2) * 256, 0),
            (81, 1 + 3 + 80 * 675, 0),
            (253, 1 + 253 * 256, 0),
            (121, 1 + 121 * 256, 1 + 256 + 120 * 256 * 12),
            (19, 1 + 19 * 256, 12 * (1 + 19 * 256)),
            (123, 1 + 4 + 122 * 512, 0),
            (123, 1 + 4 + 122 * 512, 0),
            (123, 1 + 4 + 122 * 512, 0),
            (61, 1 + 60 * 512, 0),
            (129, 1 + 240 * 128, 0),
        ];
        for ((name, pair), (members, covers, links)) in extremes().into_iter().zip(expected) {
            assert!(pair.certificate.len() <= MOST_BYTES, "{name}");
            let verdict = check(&pair.job, &pair.certificate);
            let counts = Counts {
                bads: 1,
                members,
                covers,
                links,
            };
            assert_eq!(verdict, Verdict::Accepted(counts), "{name}");
        }
    }
}
