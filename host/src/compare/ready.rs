//! Jobs written again with a ready set of forbidden shapes.

use super::{Tally, UNTOUCHED};
use crate::extremes::extremes;
use crate::library;
use crate::pairs::{accepted_pairs, Pair, Pairs};
use crate::random::Random;
use crate::reference::job::{Job, Located, Transition, MOST_FORBIDDEN};
use crate::reference::operation::{Operation, ASSIGN, LOAD, STORE};
use crate::reference::ready::{forbid, Set};
use crate::reference::refused::Refused;
use crate::reference::shape::Shape;
use crate::reference::version::Version;

const NOT_LIST: &str = "written, not a proper list";
const LOST_BLOCK: &str = "written, lost block";
const BAD_STEPS: &str = "written, steps through null and dangling";
const NO_STEPS: &str = "written, no transition steps";

const OUTCOMES: [&str; 11] = [
    NOT_LIST,
    LOST_BLOCK,
    BAD_STEPS,
    NO_STEPS,
    "refused  1",
    "refused  3",
    "refused  4",
    "refused  5",
    "refused 12",
    "refused 16",
    "refused 31",
];

/// The byte that fills the room before a call.
const ROOM: u8 = 0x5a;

/// How many random jobs, most of them damaged, are tried.
const RANDOM: usize = 4_000;

/// How many jobs are tried with every room.
const EVERY_ROOM: usize = 60;

/// The library's three calls against the reference: every set, variables and states in and out of
/// range, up to 64 forbidden shapes and beyond, every room from none to more than enough.
pub fn compare(corpus: &[Pair], seed: u64) -> Tally {
    let mut tally = Tally::new("jobs with ready shapes", &OUTCOMES);
    let mut random = Random::new(seed);
    let jobs = |Pair { job, .. }: Pair| job;
    let corpus = corpus.iter().map(|pair| pair.job.clone());
    let whole: Vec<Vec<u8>> = corpus
        .chain(extremes().into_iter().map(|(_, pair)| pair.job))
        .chain(full_jobs().iter().map(Job::bytes))
        .collect();
    let broken = [vec![], vec![1], vec![0; 65_537]];
    for job in whole.iter().cloned().chain(broken) {
        every_set(&mut tally, &job);
    }
    for job in Pairs::new(seed).take(RANDOM).map(jobs) {
        some_sets(&mut tally, &mut random, &job);
    }
    for job in accepted_pairs(Version::One, seed)
        .take(EVERY_ROOM)
        .map(jobs)
    {
        every_room(&mut tally, &mut random, &job);
    }
    tally
}

/// Jobs with so many forbidden shapes that a set just fits, or just doesn't; and with as many
/// transitions as there may be, none of which steps.
fn full_jobs() -> Vec<Job> {
    let mut jobs = Vec::new();
    for forbidden in 1..=MOST_FORBIDDEN {
        for steps in [0, 1, 2, 3, 31, 32, 33] {
            jobs.push(job(2 + forbidden % 7, forbidden, steps, 0));
        }
    }
    for others in [120, 123, 127, 128, 253] {
        jobs.push(job(8, 3, 2, others));
    }
    jobs
}

fn job(variables: u64, forbidden: u64, steps: usize, others: usize) -> Job {
    let transition = |number: usize, kind| Transition {
        from: number as u64 % 64,
        operation: Operation {
            kind,
            a: 1 + number % variables as usize,
            b: 1 + (number + 1) % variables as usize,
        },
        to: (number as u64 + 7) % 64,
    };
    let stepping = (0..steps).map(|number| transition(number, [LOAD, STORE][number % 2]));
    let other = (0..others).map(|number| transition(number, ASSIGN));
    let nothing = vec![0; variables as usize];
    Job {
        version: Version::One,
        variables,
        states: 64,
        start: 5,
        transitions: other.chain(stepping).collect(),
        forbidden: (0..forbidden)
            .map(|number| Located {
                state: number % 64,
                shape: Shape::of_codes(&nothing, &vec![0; number as usize % 13]),
            })
            .collect(),
    }
}

fn both(variable: u32, state: u32) -> [Set; 2] {
    [
        Set::NotList { variable, state },
        Set::LostBlock { variable, state },
    ]
}

/// Every set with every variable and state near the job's ranges, in no room, too little, just
/// enough and more.
fn every_set(tally: &mut Tally, job: &[u8]) {
    let (variables, states) = match Job::read(job) {
        Ok(job) => (job.variables as u32, job.states as u32),
        Err(_) => (1, 1),
    };
    let variables = (0..=variables + 1).chain([u32::MAX]);
    let states: Vec<u32> = vec![0, states / 2, states - 1, states, u32::MAX];
    let sets = variables.flat_map(|x| states.iter().flat_map(move |&state| both(x, state)));
    for set in sets.chain([Set::BadSteps]) {
        let needed = needed(job, set);
        for room in [0, needed.saturating_sub(1), needed, needed + 9] {
            call(tally, job, set, room, 1);
        }
    }
}

/// Each set once, with a variable and a state that are the job's more often than not.
fn some_sets(tally: &mut Tally, random: &mut Random, job: &[u8]) {
    let (variable, state) = (random.below(5) as u32, random.below(4) as u32);
    for set in both(variable, state).into_iter().chain([Set::BadSteps]) {
        let needed = needed(job, set);
        let room = random.pick(&[needed.saturating_sub(1), needed, needed + 3, 4_000]);
        call(tally, job, set, room, random.below(3));
    }
}

fn every_room(tally: &mut Tally, random: &mut Random, job: &[u8]) {
    for set in both(1, 0).into_iter().chain([Set::BadSteps]) {
        for room in 0..=needed(job, set) + 2 {
            call(tally, job, set, room, random.below(3));
        }
    }
}

/// The room that is just enough; some, where a refusal comes before.
fn needed(job: &[u8], set: Set) -> usize {
    forbid(job, set, usize::MAX).map_or(20, |bytes| bytes.len())
}

fn call(tally: &mut Tally, job: &[u8], set: Set, room: usize, out_len: usize) {
    let mut bytes = vec![ROOM; room];
    let mut out = [UNTOUCHED; 2];
    let returned = forbid_in_library(job, set, &mut bytes, &mut out[..out_len]);

    let mut expected = vec![ROOM; room];
    let mut expected_out = [UNTOUCHED; 2];
    let answer = forbid(job, set, room);
    let (number, value) = match &answer {
        Ok(filled) => {
            expected[..filled.len()].copy_from_slice(filled);
            (0, filled.len())
        }
        Err(Refused { number, value }) => (*number, *value),
    };
    if out_len >= 1 {
        expected_out[0] = value as u64;
    }
    tally.add(
        outcome(job, set, &answer),
        &(number, expected_out, expected),
        &(returned, out, bytes),
        || format!("job {job:?}, {set:?}, {room} bytes, out_len {out_len}"),
    );
}

/// The library's call for a set.
pub fn forbid_in_library(job: &[u8], set: Set, bytes: &mut [u8], out: &mut [u64]) -> u32 {
    match set {
        Set::NotList { variable, state } => {
            library::forbid_not_list(job, variable, state, bytes, out)
        }
        Set::LostBlock { variable, state } => {
            library::forbid_lost_block(job, variable, state, bytes, out)
        }
        Set::BadSteps => library::forbid_bad_steps(job, bytes, out),
    }
}

fn outcome(job: &[u8], set: Set, answer: &Result<Vec<u8>, Refused>) -> &'static str {
    match (answer, set) {
        (Ok(_), Set::NotList { .. }) => NOT_LIST,
        (Ok(_), Set::LostBlock { .. }) => LOST_BLOCK,
        (Ok(bytes), Set::BadSteps) if bytes == job => NO_STEPS,
        (Ok(_), Set::BadSteps) => BAD_STEPS,
        (Err(refused), _) => refusal(refused.number),
    }
}

fn refusal(number: u32) -> &'static str {
    let name = format!("refused {number:>2}");
    let found = OUTCOMES.iter().find(|&&outcome| outcome == name);
    found.unwrap_or_else(|| panic!("not expected: {name}"))
}
