//! Searches and checks every routine of the corpus, and the listings that are taken as one, prints the
//! tables of them, and fails where one ends otherwise than its name says. `corpus table1` prints
//! docs/TABLE1.md instead.

use std::env;
use std::process::ExitCode;

use vorruda_host::corpus::{self, Entry, Expected};
use vorruda_host::joining::{Joined, Listings};
use vorruda_host::judge::judge;
use vorruda_host::table1;
use vorruda_host::text::listed;
use vorruda_host::verdict::JoinVerdict;

fn main() -> ExitCode {
    let arguments: Vec<String> = env::args().skip(1).collect();
    let done = match &arguments.iter().map(String::as_str).collect::<Vec<_>>()[..] {
        [] => tables(),
        ["table1"] => table1::page().map(|page| {
            print!("{page}");
            0
        }),
        _ => Err("usage: corpus [table1]".to_string()),
    };
    match done {
        Ok(0) => ExitCode::SUCCESS,
        Ok(_) => ExitCode::FAILURE,
        Err(what) => {
            eprintln!("{what}");
            ExitCode::from(2)
        }
    }
}

/// Prints both tables; how many end otherwise than expected.
fn tables() -> Result<usize, String> {
    let entries = corpus::read()?;
    println!(
        "| routine | variables | states | transitions | forbidden | members | covers | job bytes | \
         certificate bytes | verdict |"
    );
    println!("|---|---|---|---|---|---|---|---|---|---|");
    let unexpected = entries.iter().filter(|entry| !as_expected(entry)).count();
    let of = |expected| {
        entries
            .iter()
            .filter(|entry| entry.expected == expected)
            .count()
    };
    println!(
        "\n{} certified, {} certified with a warning, {} wrong, {} right but beyond the rules; \
         {unexpected} not as expected",
        of(Expected::Certified),
        of(Expected::Warned),
        of(Expected::Wrong),
        of(Expected::Beyond),
    );
    Ok(unexpected + table_of_two()?)
}

/// Prints the table of listings that are taken as one; how many end otherwise than expected.
fn table_of_two() -> Result<usize, String> {
    println!(
        "\n| two listings | variables | states | forbidden | owed | members | covers | verdict |"
    );
    println!("|---|---|---|---|---|---|---|---|");
    let mut unexpected = 0;
    let all = corpus::joined()?;
    let count = all.len();
    for [first, second] in all {
        let name = first.name.trim_end_matches(".first").to_string();
        let listings = Listings::of(first.routine, second.routine)?;
        let (judged, joined) = listings.judge();
        let [of_first, of_second] = [&listings.first.job, &listings.second.job];
        let (columns, ending) = match joined {
            Joined::Pairs(pairs) => match pairs.verdict {
                JoinVerdict::Joined(first, second) => (
                    format!(
                        "{} | {} and {} | {} and {} | joined",
                        pairs.owed.len(),
                        first.members,
                        second.members,
                        first.covers,
                        second.covers,
                    ),
                    judged.expected(),
                ),
                verdict => (format!("- | - | - | {verdict}"), None),
            },
            _ => (
                format!("- | - | - | {}", judged.ending.words()),
                judged.expected(),
            ),
        };
        println!(
            "| {name} | {} | {} and {} | {} and {} | {columns} |",
            of_first.variables,
            of_first.states,
            of_second.states,
            of_first.forbidden.len(),
            of_second.forbidden.len(),
        );
        unexpected += usize::from(ending != Some(first.expected));
    }
    println!("\n{count} of two listings; {unexpected} not as expected");
    Ok(unexpected)
}

/// Prints a routine's row.
fn as_expected(entry: &Entry) -> bool {
    let job = &entry.routine.job;
    let judged = judge(&entry.routine);
    let ending = &judged.ending;
    let pairs = ending.pairs(&entry.routine).into_iter();
    let job_bytes: Vec<String> = pairs.map(|pair| pair.job.len().to_string()).collect();
    let warnings = judged.outlook.warnings(&entry.routine);
    let mut verdict = vec![ending.words()];
    verdict.extend(warnings.into_iter().map(|warning| warning.what));
    println!(
        "| {} | {} | {} | {} | {} | {} | {} | {} | {} | {} |",
        entry.name,
        job.variables,
        job.states,
        job.transitions.len(),
        job.forbidden.len(),
        ending.in_table(|certificate| certificate.members.len().to_string()),
        ending.in_table(|certificate| certificate.covers.len().to_string()),
        match job_bytes.is_empty() {
            true => job.bytes().len().to_string(),
            false => listed(&job_bytes),
        },
        ending.in_table(|certificate| certificate.bytes().len().to_string()),
        verdict.join("; "),
    );
    judged.expected() == Some(entry.expected)
}
