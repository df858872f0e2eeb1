//! Pairs of version 2 within the limits of the format that cost a checker most.

use crate::pairs::Pair;
use crate::reference::certificate::{Cover, MOST_MEMBERS};
use crate::reference::facts::{closed, Fact};
use crate::reference::job::{Job, Located, Transition, MOST_FORBIDDEN, MOST_TRANSITIONS};
use crate::reference::operation::{Operation, BELOW_VALUE, COPY, DELETE, DIFFERENT, EQUAL};
use crate::reference::operation::{EQUAL_VALUE, LARGER, NEW, READ};
use crate::reference::predecessor::predecessors;
use crate::reference::shape::Shape;
use crate::reference::version::Version;

/// The state that all members are at; no transition touches the start.
const BUSY: u64 = 0;
const START: u64 = 1;

const CELLS: usize = 12;

/// The links of twelve cells in a chain to #.
const CHAIN: [u64; CELLS] = [4, 5, 6, 7, 8, 9, 10, 11, 12, 13, 14, 1];

/// The links of twelve cells without any.
const LOOSE: [u64; CELLS] = [0; CELLS];

/// The costly pairs with their names. All are accepted.
pub fn value_extremes() -> Vec<(&'static str, Pair)> {
    vec![
        ("64 forbidden shapes of 288 facts", forbidden_facts()),
        ("144 facts, twelve images", many_facts(all_equal(), 16)),
        (
            "78 facts, twelve images",
            many_facts(closed(&in_order()), 17),
        ),
        ("144 facts of 14 cells, twelve images", fresh_cells()),
        ("a.num < a.num, a nowhere", below_itself()),
        ("contradictory members", contradictory()),
        (
            "a.num = b.num, both nowhere, in order",
            both_nowhere(EQUAL_VALUE, in_order()),
        ),
        (
            "a.num < b.num, both nowhere, in order",
            both_nowhere(BELOW_VALUE, in_order()),
        ),
        (
            "a.num := b.num, both nowhere, all equal",
            both_nowhere(COPY, all_equal()),
        ),
        (
            "a.num :=> b.num, both nowhere, in order",
            both_nowhere(LARGER, in_order()),
        ),
        ("read(a), a nowhere, all equal", read_anywhere()),
        ("new(a) beside values", new_beside_values()),
        ("delete, seven dangle, all equal", deletes()),
    ]
}

fn op(kind: u64, a: usize, b: usize) -> Operation {
    Operation { kind, a, b }
}

/// Each cell below the next.
pub fn in_order() -> Vec<Fact> {
    (1..CELLS).map(|cell| Fact::below(cell - 1, cell)).collect()
}

/// All cells equal, with all that follows.
pub fn all_equal() -> Vec<Fact> {
    let all = (0..CELLS).flat_map(|i| (0..CELLS).map(move |j| Fact::equal(i, j)));
    all.collect()
}

fn job(variables: usize, by: Operation, transitions: usize, forbidden: Vec<Shape>) -> Job {
    let located = |shape| Located { state: BUSY, shape };
    let transition = Transition {
        from: BUSY,
        operation: by,
        to: BUSY,
    };
    Job {
        version: Version::Two,
        variables: variables as u64,
        states: 2,
        start: START,
        transitions: vec![transition; transitions],
        forbidden: forbidden.into_iter().map(located).collect(),
    }
}

/// The pair of a job that goes round at one state by an operation, so many times. The first member is
/// forbidden, and covers all by its own cells; copies of another one come behind it.
pub fn pair(
    by: Operation,
    transitions: usize,
    first: &Shape,
    (other, copies): (&Shape, usize),
) -> Pair {
    let job = job(first.variables.len(), by, transitions, vec![first.clone()]);
    let before = predecessors(first, by).len() + copies * predecessors(other, by).len();
    let of_first = Cover {
        member: 0,
        images: (0..first.cells()).collect(),
    };
    let shapes = [vec![first.clone()], vec![other.clone(); copies]].concat();
    let located = |shape| Located { state: BUSY, shape };
    Pair::of(
        &job,
        shapes.into_iter().map(located).collect(),
        vec![of_first; 1 + transitions * before],
    )
}

/// A shape that everything satisfies.
pub fn anything(variables: usize) -> Shape {
    Shape::of_codes(&vec![0; variables], &[])
}

/// All facts of twelve cells, listed as often as a job has room, and tested for each cover.
fn forbidden_facts() -> Pair {
    let below = (0..CELLS).flat_map(|i| (0..CELLS).map(move |j| Fact::below(i, j)));
    let facts = below.chain(all_equal()).collect();
    let shape = Shape::of_codes(&[0], &LOOSE).with_facts(facts);
    let forbidden = vec![shape.clone(); MOST_FORBIDDEN as usize];
    let cover = Cover {
        member: 0,
        images: (0..CELLS).collect(),
    };
    Pair::of(
        &job(1, op(EQUAL, 0, 0), 0, forbidden),
        vec![Located { state: BUSY, shape }],
        vec![cover; MOST_FORBIDDEN as usize],
    )
}

/// Covers by a member of many facts, one for each transition and member.
fn many_facts(facts: Vec<Fact>, copies: usize) -> Pair {
    let whole = Shape::of_codes(&[0], &LOOSE).with_facts(facts);
    let transitions = MOST_TRANSITIONS as usize;
    pair(op(EQUAL, 0, 0), transitions, &whole, (&whole, copies))
}

/// The same of predecessors with one more fact, and with cells of their own for both operands.
fn fresh_cells() -> Pair {
    let whole = Shape::of_codes(&[0, 0], &LOOSE).with_facts(all_equal());
    pair(op(EQUAL_VALUE, 1, 2), 28, &whole, (&whole, 0))
}

/// Every placing is made in vain.
fn below_itself() -> Pair {
    let by = op(BELOW_VALUE, 1, 1);
    let member = Shape::of_codes(&[0; 8], &CHAIN).with_facts(in_order());
    let transitions = MOST_TRANSITIONS as usize;
    pair(by, transitions, &anything(8), (&member, 63))
}

/// Members that have nothing before them, whatever the operation.
fn contradictory() -> Pair {
    let facts = [in_order(), vec![Fact::equal(0, 11)]].concat();
    let member = Shape::of_codes(&[0; 8], &CHAIN).with_facts(facts);
    let by = op(DIFFERENT, 1, 2);
    pair(by, 1, &anything(8), (&member, MOST_MEMBERS as usize - 1))
}

/// The most predecessors that one transition on values has.
fn both_nowhere(kind: u64, facts: Vec<Fact>) -> Pair {
    let member = Shape::of_codes(&[0; 3], &CHAIN).with_facts(facts);
    pair(op(kind, 1, 2), 4, &anything(3), (&member, 20))
}

/// A cell's facts go for each choice.
fn read_anywhere() -> Pair {
    let member = Shape::of_codes(&[0; 8], &CHAIN).with_facts(all_equal());
    pair(op(READ, 1, 0), 256, &anything(8), (&member, 9))
}

/// Six cells may be new; the facts of the six others move down.
fn new_beside_values() -> Pair {
    let of_last = |fact: &Fact| fact.i >= CELLS / 2;
    let facts = in_order().into_iter().filter(of_last).collect();
    let member = Shape::of_codes(&[0; 8], &LOOSE).with_facts(facts);
    pair(op(NEW, 1, 0), 256, &anything(8), (&member, 35))
}

/// All eight variables at *, so that a delete has 128 predecessors.
fn deletes() -> Pair {
    let member = Shape::of_codes(&[2; 8], &CHAIN).with_facts(all_equal());
    pair(op(DELETE, 1, 0), 240, &anything(8), (&member, 2))
}

#[cfg(test)]
mod tests {
    use super::*;
    use crate::baseline::checker::check;
    use crate::reference::checker::{self, MOST_BYTES};
    use crate::verdict::{Counts, Verdict};

    #[test]
    fn all_are_accepted_and_large() {
        let expected = [
            (64, 1, 64),
            (1, 17, 1 + 17 * 256),
            (1, 18, 1 + 18 * 256),
            (1, 1, 1 + 28 * (12 * 13 + 14)),
            (1, 64, 1),
            (1, 512, 1 + 3),
        ];
        let extremes = value_extremes();
        for (number, (name, pair)) in extremes.iter().enumerate() {
            assert!(pair.certificate.len() <= MOST_BYTES, "{name}");
            assert!(pair.job.len() <= MOST_BYTES, "{name}");
            let verdict = check(&pair.job, &pair.certificate);
            let expected_too = checker::check(&pair.job, &pair.certificate);
            assert_eq!(verdict, expected_too, "{name}");
            let Verdict::Accepted(counts) = verdict else {
                panic!("{name}: {verdict}");
            };
            match expected.get(number) {
                Some(&(bads, members, covers)) => {
                    let links = 0;
                    let expected = Counts {
                        bads,
                        members,
                        covers,
                        links,
                    };
                    assert_eq!(counts, expected, "{name}");
                }
                None => assert!(counts.covers > 20_000, "{name}: {verdict}"),
            }
        }
    }
}
