//! Files carried between the versions by the four calls; and pairs carried there and back, judged on the
//! way.

mod calls;
mod outcomes;

use self::calls::{Carries, Rooms};
use super::Tally;
use crate::extremes::extremes;
use crate::library::carry::CarryCalls;
use crate::pairs::{
    accepted_pairs, beyond_pairs, broken_pairs, damaged_copies, delete_pairs, long_pair,
    many_fact_pairs, Pair, Pairs, ValuedPairs,
};
use crate::random::Random;
use crate::reference::carry::File;
use crate::reference::checker::MOST_BYTES;
use crate::reference::version::{Direction, Version};
use crate::value_extremes::value_extremes;
use crate::verdict::Check;

/// Calls that carry files, with the checker that judges what they carried, and titles for their tallies.
pub struct Carrier {
    pub title: &'static str,
    pub round_trips: &'static str,
    pub calls: CarryCalls,
    pub check: Check,
}

/// A file of a pair that is carried; a certificate has its job beside it.
#[derive(Clone, Copy)]
struct Case<'a> {
    direction: Direction,
    file: File,
    pair: &'a Pair,
}

/// So many random pairs of each sort are tried, most of them damaged; each of these with one room.
const RANDOM: usize = 6_000;

/// So many accepted ones, carried up where they can be, and as many damaged copies of each.
const ACCEPTED: usize = 150;
const COPIES: usize = 24;

/// So many have what version 1 lacks, or just don't.
const BEYOND: usize = 3_000;

/// So many of each other sort.
const OTHERS: usize = 200;

/// Members of the longest certificates.
const MANY_MEMBERS: [usize; 2] = [253, 512];

/// The carriers against the reference: every refusal in both directions, and every room about the length
/// needed.
pub fn compare(carriers: &[Carrier], corpus: &[Pair], seed: u64) -> Vec<Tally> {
    let mut carries = Carries::new(carriers);
    let mut random = Random::new(seed);
    // The first of those with values has as many facts in its job as there may be.
    let many_facts = value_extremes().into_iter().take(1);
    let large = extremes().into_iter().chain(many_facts);
    let large = large.map(|(_, pair)| pair).chain(long_pairs());
    for pair in corpus.iter().cloned().chain(large) {
        carries.with_others(&pair);
    }
    for version in [Version::One, Version::Two] {
        for pair in accepted_pairs(version, seed).take(ACCEPTED) {
            carries.with_others(&pair);
            let both = [pair.clone(), pair.carried(Direction::Up).unwrap_or(pair)];
            for pair in both {
                let copies = damaged_copies(&pair, 1 + random.word() / 2).take(COPIES);
                copies.for_each(|damaged| carries.add(&damaged, Rooms::Next));
            }
        }
    }
    for pair in beyond_pairs(seed).take(BEYOND) {
        carries.add(&pair, Rooms::Every);
        carries.there_and_back(&pair);
    }
    let pairs: Vec<Pair> = of_any_sort(seed).collect();
    for pair in &pairs {
        carries.add(pair, Rooms::Next);
        carries.there_and_back(pair);
        carries.add(&mixed(&mut random, pair, &pairs), Rooms::Next);
    }
    wrong_lengths().for_each(|pair| carries.add(&pair, Rooms::Every));
    carries.tallies()
}

/// Pairs of all generators, damaged and not.
fn of_any_sort(seed: u64) -> impl Iterator<Item = Pair> {
    let random = Pairs::new(seed).take(RANDOM);
    let valued = ValuedPairs::new(seed).take(RANDOM);
    let broken = [Version::One, Version::Two].into_iter();
    let broken = broken.flat_map(move |version| broken_pairs(version, seed).take(OTHERS));
    let deletes = delete_pairs(seed).take(OTHERS);
    let many = many_fact_pairs(seed).take(OTHERS);
    random
        .chain(valued)
        .chain(broken)
        .chain(deletes)
        .chain(many)
}

/// The job of a pair with the certificate of another.
fn mixed(random: &mut Random, pair: &Pair, pairs: &[Pair]) -> Pair {
    Pair {
        job: pair.job.clone(),
        certificate: pairs[random.below(pairs.len())].certificate.clone(),
    }
}

/// Certificates of up to as many bytes as there may be, of just so many that they can go up, and of one
/// more.
fn long_pairs() -> impl Iterator<Item = Pair> {
    MANY_MEMBERS.into_iter().flat_map(|members| {
        let most = MOST_BYTES - members;
        let lengths = [most - 1, most, most + 1, MOST_BYTES - 1, MOST_BYTES];
        lengths.map(|length| long_pair(members, length))
    })
}

/// Nothing, a byte and a byte too many, as job and as certificate.
fn wrong_lengths() -> impl Iterator<Item = Pair> {
    let files = [vec![], vec![1], vec![2], vec![0; MOST_BYTES + 1]];
    let jobs = files.clone().into_iter();
    jobs.flat_map(move |job| {
        let pair = |certificate: Vec<u8>| Pair {
            job: job.clone(),
            certificate,
        };
        files.clone().map(pair)
    })
}
