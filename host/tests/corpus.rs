//! Every routine ends as its name says, and what the search says of it holds by the reference.

mod common;

use std::fs;
use std::path::Path;
use std::process::Command;

use common::{assert_chain_holds, assert_run_holds, assert_wrong_run_holds};
use vorruda_host::baseline;
use vorruda_host::check as proved;
use vorruda_host::corpus::{self, Entry, Expected};
use vorruda_host::judge::judge;
use vorruda_host::outlook::Outlook;
use vorruda_host::reference::checker::check;
use vorruda_host::reference::job::Transition;
use vorruda_host::reference::version::Version;
use vorruda_host::search::{search, Outcome};
use vorruda_host::verdict::Verdict;

fn corpus() -> Vec<Entry> {
    corpus::read().unwrap()
}

#[test]
fn the_corpus_is_large_enough() {
    let entries = corpus();
    let of = |expected| {
        entries
            .iter()
            .filter(|entry| entry.expected == expected)
            .count()
    };
    assert!(of(Expected::Certified) >= 40);
    assert!(of(Expected::Wrong) >= 12);
    assert!(of(Expected::Beyond) >= 1);
    assert!(of(Expected::Warned) >= 5);
    let of_values = |expected| {
        let of = entries.iter().filter(|entry| entry.expected == expected);
        of.filter(|entry| entry.routine.job.version == Version::Two)
            .count()
    };
    assert!(of_values(Expected::Certified) >= 8);
    assert!(of_values(Expected::Wrong) >= 4);
    let is_listing = |entry: &&Entry| !entry.routine.statements.is_empty();
    let listings = entries.iter().filter(is_listing).count();
    assert!(2 * listings >= entries.len(), "{listings} listings");
}

/// The command also fails where the proved checker refuses.
#[test]
fn the_docs_have_the_table_that_the_command_prints() {
    let output = Command::new(env!("CARGO_BIN_EXE_corpus")).output().unwrap();
    assert!(output.status.success());
    let printed = String::from_utf8(output.stdout).unwrap();
    let docs = Path::new(env!("CARGO_MANIFEST_DIR")).join("../docs/CORPUS.md");
    let docs = fs::read_to_string(docs).unwrap();
    for row in printed.lines().filter(|line| line.starts_with('|')) {
        assert!(docs.contains(row), "not in docs/CORPUS.md: {row}");
    }
}

#[test]
fn routines_end_as_their_names_say() {
    for Entry {
        name,
        expected,
        routine,
    } in corpus()
    {
        match search(&routine.job) {
            Outcome::Certified(certificate) => {
                let is_expected = matches!(expected, Expected::Certified | Expected::Warned);
                assert!(is_expected, "{name}");
                let (job, certificate) = (routine.job.bytes(), certificate.bytes());
                let verdict = check(&job, &certificate);
                assert!(matches!(verdict, Verdict::Accepted(_)), "{name}: {verdict}");
                for other in [
                    baseline::checker::check,
                    baseline::quicker::check,
                    proved::check,
                ] {
                    assert_eq!(other(&job, &certificate), verdict, "{name}");
                }
            }
            Outcome::Wrong(wrong) => {
                assert_eq!(expected, Expected::Wrong, "{name}");
                assert_wrong_run_holds(&routine.job, &wrong, &name);
            }
            Outcome::Impossible { chain, .. } => {
                assert_eq!(expected, Expected::Beyond, "{name}");
                assert_chain_holds(&routine.job, &chain, &name);
            }
            Outcome::Split(_) => panic!("{name} is split"),
            Outcome::Undecided(stuck, _) => panic!("{name}: {}", stuck.limit),
        }
    }
}

/// A run is told for every mark, or a warning that there is none; and where a run is told to stop, no
/// transition of the reference goes on.
#[test]
fn what_looking_forward_shows_holds() {
    let mut kinds = Vec::new();
    for Entry {
        name,
        expected,
        routine,
    } in corpus()
    {
        let Outlook {
            unreached,
            stops,
            arrivals,
            ..
        } = judge(&routine).outlook;
        let job = &routine.job;
        for (state, run) in &arrivals {
            assert_run_holds(job, run, *state, &name);
        }
        for state in (0..job.states).filter(|&state| routine.mark(state).is_some()) {
            let is_reached = arrivals.iter().any(|(other, _)| *other == state);
            assert_ne!(is_reached, unreached.contains(&state), "{name}");
        }
        for stop in &stops {
            let state = job.transitions[stop.transition].from;
            assert_run_holds(job, &stop.run, state, &name);
            let leaving = job.transitions.iter().filter(|other| other.from == state);
            for Transition { operation, .. } in leaving {
                let goes_on =
                    [0, usize::MAX].map(|choice| stop.run.last().after(*operation, choice));
                assert_eq!(goes_on, [None, None], "{name}");
            }
        }
        if expected == Expected::Warned {
            kinds.push((name, unreached.len(), stops.len()));
        }
    }
    let expected = [
        ("warned_delete_twice", 1, 1),
        ("warned_link_of_null", 0, 1),
        ("warned_mark_unreached", 1, 0),
        ("warned_never_set", 0, 1),
        ("warned_use_after_delete", 1, 1),
    ];
    let expected = expected.map(|(name, unreached, stops)| (name.to_string(), unreached, stops));
    assert_eq!(kinds, expected);
}
