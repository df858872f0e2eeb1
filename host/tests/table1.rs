//! The programs of source 000's Table 1 end as they should, and the page of them is as it is printed.

use std::fs;
use std::path::Path;
use std::process::Command;

use vorruda_host::check::check;
use vorruda_host::corpus::{self, Expected};
use vorruda_host::random::Random;
use vorruda_host::reference::job::Job;
use vorruda_host::search::{search, Outcome};
use vorruda_host::table1::PROGRAMS;
use vorruda_host::verdict::Verdict;

/// Those of the programs that are right, by the name of their routine.
fn right() -> Vec<(&'static str, Job)> {
    let entries = PROGRAMS.iter().map(|program| {
        let entry = corpus::find(program.routine).unwrap();
        (program.routine, entry)
    });
    let right = entries.filter(|(_, entry)| entry.expected == Expected::Certified);
    right
        .map(|(name, entry)| {
            let origins = &entry.routine.origins;
            let has_steps = origins.iter().any(|origin| origin.text == "steps");
            assert!(has_steps, "{name}");
            (name, entry.routine.job)
        })
        .collect()
}

/// How many members the accepted certificate of a job has.
fn members(name: &str, job: &Job) -> usize {
    let Outcome::Certified(certificate) = search(job) else {
        panic!("{name} isn't certified");
    };
    let verdict = check(&job.bytes(), &certificate.bytes());
    assert!(matches!(verdict, Verdict::Accepted(_)), "{name}: {verdict}");
    certificate.members.len()
}

#[test]
fn ten_are_right_and_two_are_not() {
    assert_eq!(right().len(), 10);
    for program in &PROGRAMS {
        let expected = corpus::find(program.routine).unwrap().expected;
        let is_bug = program.name.ends_with("(bug)");
        assert_eq!(expected == Expected::Wrong, is_bug, "{}", program.name);
    }
}

#[test]
fn the_order_of_what_is_forbidden_changes_nothing() {
    let mut random = Random::new(0x3d_5eed);
    for (name, job) in right() {
        let as_told = members(name, &job);
        let mut turned = job.clone();
        turned.forbidden.reverse();
        let mut mixed = job;
        mixed.forbidden.sort_by_cached_key(|_| random.word());
        for other in [turned, mixed] {
            assert_eq!(members(name, &other), as_told, "{name}");
        }
    }
}

/// A page without the times of its rows, the last two columns.
fn without_times(page: &str) -> Vec<String> {
    let line = |line: &str| match line.starts_with('|') {
        true => line.split('|').take(11).collect(),
        false => line.to_string(),
    };
    page.lines().map(line).collect()
}

#[test]
fn the_page_is_what_the_command_prints() {
    let mut command = Command::new(env!("CARGO_BIN_EXE_corpus"));
    let output = command.arg("table1").output().unwrap();
    assert!(output.status.success());
    let printed = String::from_utf8(output.stdout).unwrap();
    let page = Path::new(env!("CARGO_MANIFEST_DIR")).join("../docs/TABLE1.md");
    let page = fs::read_to_string(page).unwrap();
    assert_eq!(without_times(&page), without_times(&printed));
}
