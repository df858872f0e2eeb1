//! The search on random jobs, and on jobs that need more than one certificate.

mod common;

use common::{assert_chain_holds, assert_wrong_run_holds};
use vorruda_host::check as proved;
use vorruda_host::corpus;
use vorruda_host::pairs::{accepted_pairs, Pair};
use vorruda_host::reference::checker::check;
use vorruda_host::reference::job::{Job, Located, Transition};
use vorruda_host::reference::version::Version;
use vorruda_host::routine::{Forbids, Routine};
use vorruda_host::search::split::Part;
use vorruda_host::search::{search, search_lines, Limit, Outcome, Stuck};
use vorruda_host::verdict::Verdict;

/// Whether a certificate was found; what the search says is checked.
fn is_certified(job: &Job) -> bool {
    match search(job) {
        Outcome::Certified(certificate) => {
            let verdict = check(&job.bytes(), &certificate.bytes());
            assert!(
                matches!(verdict, Verdict::Accepted(_)),
                "{verdict}: {job:?}"
            );
            true
        }
        Outcome::Wrong(wrong) => {
            assert_wrong_run_holds(job, &wrong, &format!("{job:?}"));
            false
        }
        Outcome::Impossible { chain, .. } => {
            assert_chain_holds(job, &chain, &format!("{job:?}"));
            false
        }
        Outcome::Split(_) => panic!("a job without lines is not split: {job:?}"),
        Outcome::Undecided(..) => false,
    }
}

/// The jobs of accepted pairs.
fn jobs(version: Version, seed: u64) -> impl Iterator<Item = Job> {
    let pairs = accepted_pairs(version, seed);
    pairs.map(|Pair { job, .. }| Job::read(&job).expect("the job of an accepted pair reads"))
}

#[test]
fn what_has_a_certificate_gets_one() {
    for job in jobs(Version::One, 0xa_5eed).take(300) {
        assert!(is_certified(&job), "{job:?}");
    }
}

#[test]
fn what_has_a_certificate_with_values_mostly_gets_one() {
    let jobs = jobs(Version::Two, 0x36_5eed).take(100);
    let certified = jobs.filter(is_certified).count();
    assert!(certified >= 95, "{certified}");
}

/// Asserts that what the search says of some jobs holds, from whatever state they start.
fn assert_said_holds(jobs: impl Iterator<Item = Job>) {
    let (mut certified, mut others) = (0, 0);
    for job in jobs {
        for start in 0..job.states.min(6) {
            let job = Job {
                start,
                ..job.clone()
            };
            match is_certified(&job) {
                true => certified += 1,
                false => others += 1,
            }
        }
    }
    assert!(certified > 80 && others > 80, "{certified} and {others}");
}

#[test]
fn what_the_search_says_holds_for_every_start() {
    assert_said_holds(jobs(Version::One, 0x1b_5eed).take(400));
}

#[test]
fn what_the_search_says_of_values_holds_for_every_start() {
    assert_said_holds(jobs(Version::Two, 0x37_5eed).take(400));
}

/// A routine that is split, or one beside it.
fn beside_the_corpus(name: &str) -> Routine {
    let folder = concat!(env!("CARGO_MANIFEST_DIR"), "/tests/split");
    let found = corpus::find(&format!("{folder}/{name}.routine"));
    found.unwrap().routine
}

/// The routine that is split.
fn beyond_the_limit() -> Routine {
    beside_the_corpus("table1_bubble_sort_cyclic")
}

/// Asserts that parts are disjoint, are all of what the job forbids, have whole lines each, and that each is
/// accepted by the proved call.
fn assert_split(job: &Job, lines: &[Vec<usize>], parts: &[Part]) {
    let shapes = parts.iter().flat_map(|part| &part.forbidden);
    let mut shapes: Vec<usize> = shapes.copied().collect();
    shapes.sort_unstable();
    assert!(shapes.into_iter().eq(0..job.forbidden.len()));
    for line in lines {
        let has_line = |part: &Part| line.iter().all(|shape| part.forbidden.contains(shape));
        assert!(parts.iter().any(has_line), "{line:?}");
    }
    for part in parts {
        assert!(part.forbidden.is_sorted());
        let part_job = job.forbidding(&part.forbidden);
        assert_eq!(part_job.transitions, job.transitions);
        let verdict = proved::check(&part_job.bytes(), &part.certificate.bytes());
        assert!(matches!(verdict, Verdict::Accepted(_)), "{verdict}");
    }
}

#[test]
fn what_passes_the_limit_is_split() {
    let routine = beyond_the_limit();
    let lines = routine.forbidding_lines();
    let Outcome::Split(parts) = search_lines(&routine.job, &lines) else {
        panic!("not split");
    };
    assert_eq!(parts.len(), 2);
    assert_split(&routine.job, &lines, &parts);
}

/// Without lines, with one, and where a line alone passes the limit.
#[test]
fn what_can_not_be_split() {
    let job = beyond_the_limit().job;
    let shapes: Vec<usize> = (0..job.forbidden.len()).collect();
    for lines in [vec![], vec![shapes]] {
        let Outcome::Undecided(stuck, _) = search_lines(&job, &lines) else {
            panic!("not undecided");
        };
        let limit = Limit::Members(526);
        assert_eq!(stuck, Stuck { limit, alone: None });
    }
    let (job, [first, second, third]) = three_of_one();
    let lines = [first, [second, third].concat()];
    let Outcome::Undecided(stuck, _) = search_lines(&job, &lines) else {
        panic!("not undecided");
    };
    assert_eq!(stuck.alone, Some(lines[1][0]));
}

#[test]
fn what_fits_is_not_split() {
    let merge_by_lines = beside_the_corpus("table1_merge");
    let routines = ["reverse", "bubble_sort", "table1_merge"];
    let routines = routines.map(|name| (name, corpus::find(name).unwrap().routine));
    for (name, routine) in routines.into_iter().chain([("by lines", merge_by_lines)]) {
        let lines = routine.forbidding_lines();
        assert!(lines.len() > 1, "{name}");
        let Outcome::Certified(certificate) = search_lines(&routine.job, &lines) else {
            panic!("{name} isn't certified in one job");
        };
        assert!(certificate.members.len() <= 512, "{name}");
    }
}

/// A job that does one of three things, each what `filter` does, which alone takes more than half of the
/// members that there may be; and what is forbidden of each.
fn three_of_one() -> (Job, [Vec<usize>; 3]) {
    let Routine { job, origins, .. } = corpus::find("filter").unwrap().routine;
    assert_eq!(job.start, 0);
    let others = job.states - 1;
    let mut three = Job {
        states: 1 + 3 * others,
        transitions: Vec::new(),
        forbidden: Vec::new(),
        ..job.clone()
    };
    let lines = [0, 1, 2].map(|copy| {
        let at = |state: u64| match state {
            0 => 0,
            other => copy * others + other,
        };
        let transitions = job.transitions.iter().map(|transition| Transition {
            from: at(transition.from),
            to: at(transition.to),
            ..*transition
        });
        three.transitions.extend(transitions);
        let first = three.forbidden.len();
        let forbidden = job.forbidden.iter().zip(&origins);
        let forbidden = forbidden.filter(|(_, origin)| origin.forbids() != Forbids::Steps);
        three.forbidden.extend(forbidden.map(|(bad, _)| Located {
            state: at(bad.state),
            shape: bad.shape.clone(),
        }));
        (first..three.forbidden.len()).collect()
    });
    (three, lines)
}

/// Two lines of the three don't fit into one job.
#[test]
fn three_jobs_where_two_are_not_enough() {
    let (job, lines) = three_of_one();
    let Outcome::Split(parts) = search_lines(&job, &lines) else {
        panic!("not split");
    };
    assert_eq!(parts.len(), 3);
    assert_split(&job, &lines, &parts);
}
