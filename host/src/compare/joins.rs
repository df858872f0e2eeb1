//! Two pairs joined at a state of the first; and the runs of joined programs over small heaps.

use std::collections::HashSet;
use std::ops::RangeInclusive;

use super::{lent, told, told_as, Tally};
use crate::library::Join;
use crate::pairs::{damaged_copies, joints, only_forbidding, Joint, Pair, Pairs, ValuedPairs};
use crate::random::Random;
use crate::reference::checker::{accept, Accepted, Start};
use crate::reference::facts::Fact;
use crate::reference::job::{Job, Located};
use crate::reference::join::{join, joined, run};
use crate::reference::shape::Shape;
use crate::reference::version::Version;
use crate::verdict::{JoinVerdict, Mismatch};

/// So many pairs of pairs are made, and each is tried in so many ways more.
const JOINTS: usize = 4_000;
const WAYS: usize = 8;

/// So many joined programs are run.
const RUNS: usize = 1_500;

/// Lengths of what is told: too short, exact and longer.
const OUT_LENGTHS: RangeInclusive<usize> = 0..=10;

/// Refusals of a pair; 8 of the first only.
const REFUSALS: [u32; 11] = [1, 2, 3, 4, 5, 6, 7, 8, 9, 10, 20];

/// Why pairs that are right can't be joined.
const MISMATCHES: [&str; 9] = [
    "24, the number of states",
    "24, up to 255",
    "24, above 255",
    "25",
    "26, to other states",
    "26, to itself only",
    "27, listed at another state",
    "27, listed with other facts",
    "27, not listed",
];

/// What is owed where pairs are joined.
const OWED: [&str; 4] = [
    "nothing owed",
    "owed",
    "owed twice",
    "owed, the second alone refused 8",
];

/// Where the runs of a joined program come.
const REACHED: [&str; 3] = [
    "they come into the second",
    "they end at the hand-over",
    "they don't come to it",
];

/// The calls with these titles against the reference, and runs of the programs that it joins.
pub fn compare(joins: &[(&'static str, Join)], seed: u64) -> Vec<Tally> {
    let outcomes = outcomes();
    let outcomes: Vec<&str> = outcomes.iter().map(String::as_str).collect();
    let tally = |&(title, call): &(&str, Join)| (call, Tally::new(title, &outcomes));
    let mut joins = Joins {
        compared: joins.iter().map(tally).collect(),
        runs: Tally::new("runs of joined programs", &REACHED),
        turn: 0,
    };
    let mut random = Random::new(seed);
    let mut last = None;
    for (number, joint) in joints(seed).take(JOINTS).enumerate() {
        joins.add(&joint);
        if number < RUNS {
            joins.run(&joint);
        }
        let last = last.replace(joint.clone()).unwrap_or(joint.clone());
        for other in other_ways(&mut random, &joint, &last) {
            joins.add(&other);
        }
    }
    alike_but_for_cells()
        .iter()
        .for_each(|joint| joins.add(joint));
    joins.pairs_of_any_sort(&mut random, seed);
    let calls = joins.compared.into_iter().map(|(_, tally)| tally);
    calls.chain([joins.runs]).collect()
}

/// The names of all outcomes.
fn outcomes() -> Vec<String> {
    let refused = |pair: u64| REFUSALS.map(|number| pair_refused(pair, number));
    let refused = [1, 2].into_iter().flat_map(refused);
    let refused = refused.filter(|outcome| *outcome != pair_refused(2, 8));
    let versions = [(1, 1), (1, 2), (2, 1), (2, 2)].into_iter();
    let joined = versions.flat_map(|(first, second)| OWED.map(|owed| both(first, second, owed)));
    let mismatches = MISMATCHES.map(String::from);
    refused.chain(mismatches).chain(joined).collect()
}

fn pair_refused(pair: u64, number: u32) -> String {
    format!("pair {pair} refused {number:>2}")
}

fn both(first: u64, second: u64, owed: &str) -> String {
    format!("joined, versions {first} and {second}, {owed}")
}

/// The outcome's name of a join.
fn outcome(joint: &Joint, verdict: &JoinVerdict) -> String {
    match verdict {
        JoinVerdict::PairRefused(pair, refusal) => pair_refused(*pair, refusal.number),
        JoinVerdict::Mismatched(mismatch) => {
            let (first, second) = read(joint);
            mismatched(*mismatch, &first.job, &second, joint.state).to_string()
        }
        JoinVerdict::Joined(..) => {
            let (first, second) = read(joint);
            let (job, certificate) = joint.second.files();
            let owed = owed(&second);
            let different: HashSet<&Shape> = owed.iter().copied().collect();
            let words = match accept(job, certificate, Start::Empty) {
                Err(_) => OWED[3],
                Ok(_) if owed.is_empty() => OWED[0],
                Ok(_) if different.len() == owed.len() => OWED[1],
                Ok(_) => OWED[2],
            };
            let version = |job: &Job| job.version.number();
            both(version(&first.job), version(&second.job), words)
        }
    }
}

/// Both pairs, which are right.
fn read(joint: &Joint) -> (Accepted, Accepted) {
    let [first, second] = joint.files();
    let right = "a pair that isn't refused is right";
    (
        accept(first.0, first.1, Start::Empty).expect(right),
        accept(second.0, second.1, Start::HandedOver).expect(right),
    )
}

/// The shapes of the members at the start.
fn owed(second: &Accepted) -> Vec<&Shape> {
    let members = second.members.iter().map(|member| &member.located);
    let at_start = members.filter(|member| member.state == second.job.start);
    at_start.map(|member| &member.shape).collect()
}

fn mismatched(mismatch: Mismatch, first: &Job, second: &Accepted, state: u32) -> &'static str {
    let hand_over = u64::from(state);
    match mismatch {
        Mismatch::State if hand_over == first.states => MISMATCHES[0],
        Mismatch::State if state < 256 => MISMATCHES[1],
        Mismatch::State => MISMATCHES[2],
        Mismatch::Variables => MISMATCHES[3],
        Mismatch::Transition => {
            let mut leaving = first.transitions.iter().filter(|by| by.from == hand_over);
            match leaving.all(|by| by.to == hand_over) {
                false => MISMATCHES[4],
                true => MISMATCHES[5],
            }
        }
        Mismatch::Owed => {
            let listed = |as_listed: &dyn Fn(&Located, &Shape) -> bool| {
                let is_listed = |shape: &&Shape| {
                    let mut forbidden = first.forbidden.iter();
                    forbidden.any(|bad| as_listed(bad, shape))
                };
                owed(second).iter().all(is_listed)
            };
            let is_here = |bad: &Located| bad.state == hand_over;
            let without_facts = |shape: &Shape| shape.clone().with_facts(Vec::new());
            if listed(&|bad, shape| bad.shape == *shape) {
                MISMATCHES[6]
            } else if listed(&|bad, shape| {
                is_here(bad) && without_facts(&bad.shape) == without_facts(shape)
            }) {
                MISMATCHES[7]
            } else {
                MISMATCHES[8]
            }
        }
    }
}

/// Shapes whose numbers are the same but for that of their cells: four links without a fact, and a link
/// with a fact. Each is listed for each.
fn alike_but_for_cells() -> Vec<Joint> {
    let with_fact = Shape::of_codes(&[0], &[0]).with_facts(vec![Fact::below(0, 0)]);
    let shapes = [Shape::of_codes(&[0], &[0, 1, 0, 0]), with_fact];
    let joint = |listed: &Shape, owed: &Shape| Joint {
        first: only_forbidding(Version::Two, vec![listed.clone()], 1),
        second: only_forbidding(Version::Two, vec![owed.clone()], 0),
        state: 0,
    };
    let of_listed = |listed| shapes.iter().map(move |owed| joint(listed, owed));
    shapes.iter().flat_map(of_listed).collect()
}

/// The joint with other states, with damaged pairs, with the pairs exchanged, and with those of another.
fn other_ways(random: &mut Random, joint: &Joint, other: &Joint) -> [Joint; WAYS] {
    let damaged = |random: &mut Random, pair: &Pair| {
        let mut copies = damaged_copies(pair, 1 + random.word() / 2);
        copies.next().expect("there is no end of them")
    };
    let states = u32::from(joint.first.job[2]);
    let low = joint.state;
    let far = [64, 255, 256 + low, 65_536 + low, 1 << 31 | low, u32::MAX];
    [
        Joint {
            state: states + random.below(2) as u32,
            ..joint.clone()
        },
        Joint {
            state: random.pick(&far),
            ..joint.clone()
        },
        Joint {
            state: random.below(states as usize) as u32,
            ..joint.clone()
        },
        Joint {
            first: damaged(random, &joint.first),
            ..joint.clone()
        },
        Joint {
            second: damaged(random, &joint.second),
            ..joint.clone()
        },
        Joint {
            first: damaged(random, &joint.first),
            second: damaged(random, &joint.second),
            ..joint.clone()
        },
        Joint {
            first: joint.second.clone(),
            second: joint.first.clone(),
            ..joint.clone()
        },
        Joint {
            second: other.second.clone(),
            ..joint.clone()
        },
    ]
}

struct Joins {
    compared: Vec<(Join, Tally)>,
    runs: Tally,
    /// Goes on with each join, which takes the next length for what is told.
    turn: usize,
}

impl Joins {
    fn add(&mut self, joint: &Joint) {
        self.turn += 1;
        let out_len = self.turn % (OUT_LENGTHS.end() + 1);
        let [first, second] = joint.files();
        let verdict = join(first, second, joint.state);
        let outcome = outcome(joint, &verdict);
        let expected = (
            verdict.number(),
            told_as(&verdict.told(), out_len),
            joint.clone(),
        );
        for (call, tally) in &mut self.compared {
            let (mut out, files) = (told(out_len), joint.clone());
            let [first, second] = files.files();
            let number = call(first, second, joint.state, lent(&mut out));
            let words = || format!("{joint:?}, {out_len} values told");
            tally.add(&outcome, &expected, &(number, out, files), words);
        }
    }

    /// Runs the program of pairs that are joined, if they are.
    fn run(&mut self, joint: &Joint) {
        let [first, second] = joint.files();
        if join(first, second, joint.state).number() != 0 {
            return;
        }
        let (first, second) = read(joint);
        let hand_over = joint.state.into();
        let runs = run(&joined(&first.job, &second.job, hand_over));
        let is_behind = |&state: &u64| state >= first.job.states;
        let reached = match runs.states.contains(&hand_over) {
            true if runs.states.iter().any(is_behind) => REACHED[0],
            true => REACHED[1],
            false => REACHED[2],
        };
        let words = || format!("{joint:?}");
        self.runs.add(reached, &None, &runs.forbidden, words);
    }

    /// Pairs of all generators, damaged and not, as they come.
    fn pairs_of_any_sort(&mut self, random: &mut Random, seed: u64) {
        let of_version_1: Vec<Pair> = Pairs::new(seed).take(JOINTS / 4).collect();
        let of_version_2 = ValuedPairs::new(seed).take(JOINTS / 4);
        let pairs: Vec<Pair> = of_version_1.into_iter().chain(of_version_2).collect();
        for pair in &pairs {
            let first = pair.clone();
            let second = pairs[random.below(pairs.len())].clone();
            let state = random.below(3) as u32;
            self.add(&Joint {
                first,
                second,
                state,
            });
        }
    }
}
