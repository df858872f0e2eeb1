//! Compares the proved libraries with the implementation written apart, prints how many cases of each
//! sort were compared, and fails where one differs or a sort has none.
//!
//! `compare [PAIRS [SEED]]`: how many random pairs of a job and a certificate, and from which seed.

use std::env;
use std::process::ExitCode;

#[cfg(feature = "carrying")]
use vorruda_host::compare::carries::{self, Carrier};
use vorruda_host::compare::listings::Translate;
use vorruda_host::compare::verdicts::Checker;
use vorruda_host::compare::{
    block_lists, joins, listings, lists, numbers, ready, steps, tallies, verdicts, Tally,
};
#[cfg(feature = "carrying")]
use vorruda_host::library::carry::CARRY_CALLS;
use vorruda_host::library::{Join, TallyCalls};
use vorruda_host::list_library::{self, Calls};
use vorruda_host::pairs::Pair;
use vorruda_host::{baseline, check, corpus, library};

/// The checkers that are compared with the reference.
const CHECKERS: [Checker; 3] = [
    Checker {
        title: "the proved checker's verdicts",
        check: check::check,
    },
    Checker {
        title: "the baseline's verdicts",
        check: baseline::checker::check,
    },
    Checker {
        title: "the quicker baseline's verdicts",
        check: baseline::quicker::check,
    },
];

/// The translators of listings that are compared with it.
const TRANSLATORS: [(&str, Translate); 2] = [
    ("listings", library::translate),
    ("the baseline's listings", baseline::listing::translate),
];

/// The block lists that are compared with it.
const BLOCK_LISTS: [(&str, Calls); 3] = [
    ("the block list", list_library::CALLS),
    ("the baseline's block list", baseline::block_list::CALLS),
    (
        "the baseline's block list through steps",
        baseline::block_list::through_steps::CALLS,
    ),
];

/// The tallies that are compared with it.
const TALLIES: [(&str, TallyCalls); 2] = [
    ("the tally", library::TALLY_CALLS),
    ("the baseline's tally", baseline::tally::CALLS),
];

/// The joins that are compared with it.
const JOINS: [(&str, Join); 2] = [
    ("joins", library::join),
    ("the baseline's joins", baseline::join::join),
];

/// The calls that carry files, compared with it.
#[cfg(feature = "carrying")]
const CARRIERS: [Carrier; 2] = [
    Carrier {
        title: "files carried",
        round_trips: "files carried there and back",
        calls: CARRY_CALLS,
        check: check::check,
    },
    Carrier {
        title: "the baseline's files carried",
        round_trips: "the baseline's files carried there and back",
        calls: baseline::carry::CALLS,
        check: baseline::checker::check,
    },
];

const PAIRS: u64 = 100_000;
const SEED: u64 = 0x0009_5eed;

fn main() -> ExitCode {
    match tallies() {
        Ok(tallies) => report(&tallies),
        Err(what) => {
            eprintln!("{what}");
            ExitCode::from(2)
        }
    }
}

fn tallies() -> Result<Vec<Tally>, String> {
    let pairs = argument(1, PAIRS)? as usize;
    let seed = argument(2, SEED)?;
    let corpus = corpus::certified()?.into_iter();
    let corpus: Vec<Pair> = corpus.map(|(_, pair)| pair).collect();
    let calls = vec![
        numbers::compare(),
        lists::compare_writing(),
        lists::compare_round_trips(),
        ready::compare(&corpus, seed),
    ];
    let listings = listings::compare(&TRANSLATORS, seed);
    let all = calls.into_iter().chain(steps::compare());
    let all = all.chain(block_lists::compare(&BLOCK_LISTS));
    let all = all.chain(tallies::compare(&TALLIES, seed));
    let all = all.chain(joins::compare(&JOINS, seed));
    #[cfg(feature = "carrying")]
    let all = all.chain(carries::compare(&CARRIERS, &corpus, seed));
    let pairs = verdicts::pairs(corpus, seed, pairs);
    let verdicts = verdicts::compare(&CHECKERS, pairs);
    Ok(all.chain(listings).chain(verdicts).collect())
}

fn argument(index: usize, usual: u64) -> Result<u64, String> {
    match env::args().nth(index) {
        None => Ok(usual),
        Some(text) => match text.parse() {
            Ok(number) if number > 0 => Ok(number),
            _ => Err(format!("usage: compare [PAIRS [SEED]], and not '{text}'")),
        },
    }
}

fn report(tallies: &[Tally]) -> ExitCode {
    let right = tallies.iter().filter(|tally| tally.report()).count();
    if right < tallies.len() {
        return ExitCode::FAILURE;
    }
    println!("all agree with the reference");
    ExitCode::SUCCESS
}
