//! Verdicts on pairs of a job and a certificate.

use super::{Tally, UNTOUCHED};
use crate::baseline::checker::is_of_version_2;
use crate::extremes::extremes;
use crate::library;
use crate::pairs::{
    broken_pairs, damaged_copies, delete_pairs, many_fact_pairs, near_pairs, series_pairs, Pair,
    Pairs, ValuedPairs,
};
use crate::reference::checker;
use crate::reference::cover::{cover_at, Reason};
use crate::reference::job::Job;
use crate::reference::version::Version;
use crate::sweep;
use crate::value_extremes::value_extremes;
use crate::verdict::{Broken, Check, Verdict};

const OUTCOMES: [&str; 27] = [
    "accepted, up to 5 covers, no links",
    "accepted, up to 5 covers with links",
    "accepted, up to 50 covers, no links",
    "accepted, up to 50 covers with links",
    "accepted, up to 500 covers, no links",
    "accepted, up to 500 covers with links",
    "accepted, up to 65,000 covers, no links",
    "accepted, up to 65,000 covers with links",
    "refused  1",
    "refused  2",
    "refused  3",
    "refused  4",
    "refused  5",
    "refused  6",
    "refused  7",
    "refused  8",
    "refused  9, rule 1, of a forbidden shape",
    "refused  9, rule 1, of a predecessor",
    "refused  9, rule 2, of a forbidden shape",
    "refused  9, rule 2, of a predecessor",
    "refused  9, rule 3, of a forbidden shape",
    "refused  9, rule 3, of a predecessor",
    "refused  9, rule 4, of a forbidden shape",
    "refused  9, rule 4, of a predecessor",
    "refused  9, rule 5, of a forbidden shape",
    "refused  9, rule 5, of a predecessor",
    "refused 10",
];

const CALLS: &str = "vorruda_check and vorruda_verdict";

/// Lengths of `out` that are tried in turn: too short, exact and longer.
const OUT_LENGTHS: [usize; 6] = [0, 1, 2, 3, 4, 5];

/// Those that only files of version 2 come to.
const OUTCOMES_OF_VERSION_2: [&str; 3] = [
    "refused  9, rule 6, of a forbidden shape",
    "refused  9, rule 6, of a predecessor",
    "refused 20",
];

/// A checker that is compared with the reference.
pub struct Checker {
    pub title: &'static str,
    pub check: Check,
}

/// Compares checkers with the reference on pairs; and last the library's two calls, with all that they
/// write. Pairs in which a file is of version 2 are counted apart.
pub fn compare(checkers: &[Checker], pairs: impl Iterator<Item = Pair>) -> Vec<Tally> {
    let mut of_version_1 = Compared::of_version_1(checkers);
    let mut of_version_2 = Compared::of_version_2(checkers);
    for (pair, out_len) in pairs.zip(OUT_LENGTHS.into_iter().cycle()) {
        let files = [&pair.job, &pair.certificate];
        match files.into_iter().any(|file| is_of_version_2(file)) {
            false => of_version_1.add(&pair, out_len),
            true => of_version_2.add(&pair, out_len),
        }
    }
    let compared = [of_version_1, of_version_2].into_iter();
    compared.flat_map(Compared::tallies).collect()
}

/// The checkers and the library's calls, each with its tally.
struct Compared {
    checkers: Vec<(Check, Tally)>,
    calls: Tally,
}

impl Compared {
    fn of_version_1(checkers: &[Checker]) -> Compared {
        let with_tally = |of: &Checker| (of.check, Tally::new(of.title, &OUTCOMES));
        Compared {
            checkers: checkers.iter().map(with_tally).collect(),
            calls: Tally::new(CALLS, &OUTCOMES),
        }
    }

    fn of_version_2(checkers: &[Checker]) -> Compared {
        let outcomes = [&OUTCOMES[..], &OUTCOMES_OF_VERSION_2].concat();
        let tally = |title: &str| Tally::new(format!("{title}, version 2"), &outcomes);
        Compared {
            checkers: checkers
                .iter()
                .map(|of| (of.check, tally(of.title)))
                .collect(),
            calls: tally(CALLS),
        }
    }

    fn add(&mut self, Pair { job, certificate }: &Pair, out_len: usize) {
        let expected = checker::check(job, certificate);
        let outcome = outcome(job, certificate, &expected);
        let words = || format!("job {job:?}\n  certificate {certificate:?}");
        for (check, tally) in &mut self.checkers {
            tally.add(&outcome, &expected, &check(job, certificate), words);
        }
        self.calls.add(
            &outcome,
            &expected_answers(&expected, out_len),
            &answers(job, certificate, out_len),
            || format!("out_len {out_len}, {}", words()),
        );
    }

    fn tallies(self) -> Vec<Tally> {
        let checkers = self.checkers.into_iter().map(|(_, tally)| tally);
        checkers.chain([self.calls]).collect()
    }
}

/// What both calls return, and what the second leaves in an array of which so much is lent.
type Answers = (u32, u32, [u64; 5]);

fn answers(job: &[u8], certificate: &[u8], out_len: usize) -> Answers {
    let mut out = [UNTOUCHED; 5];
    let number = library::check(job, certificate);
    let again = library::verdict(job, certificate, &mut out[..out_len]);
    (number, again, out)
}

fn expected_answers(verdict: &Verdict, out_len: usize) -> Answers {
    let mut out = [UNTOUCHED; 5];
    if out_len >= 4 {
        out[..4].copy_from_slice(&verdict.told());
    }
    (verdict.number(), verdict.number(), out)
}

/// How many damaged copies of each real certificate are tried.
const COPIES: usize = 60;

/// So many random pairs, one in five of them with covers that hold or nearly do, one in five with a
/// cover that breaks chosen rules, one in fifty with covers that follow each other closely, and one in
/// fifty with deletes and dangling variables; then the corpus with damaged copies, every kind on large
/// members, and the extremes; then those of version 2.
pub fn pairs(corpus: Vec<Pair>, seed: u64, random: usize) -> impl Iterator<Item = Pair> {
    let real = corpus.into_iter().flat_map(move |pair| {
        let copies: Vec<Pair> = damaged_copies(&pair, seed).take(COPIES).collect();
        std::iter::once(pair).chain(copies)
    });
    let kinds = sweep::pairs(2).into_iter().map(|(_, pair)| pair);
    let extremes = extremes().into_iter().map(|(_, pair)| pair);
    let with_values = pairs_with_values(seed, random / 5);
    let fifth = random / 5;
    let near = near_pairs(seed).take(fifth);
    let broken = broken_pairs(Version::One, seed).take(fifth);
    let fiftieth = random / 50;
    let series = series_pairs(seed).take(fiftieth);
    let deletes = delete_pairs(seed).take(fiftieth);
    let random = Pairs::new(seed).take(random - 2 * fifth - 2 * fiftieth);
    let random = random.chain(near).chain(broken).chain(series);
    let random = random.chain(deletes);
    let version_1 = random.chain(real).chain(kinds).chain(extremes);
    version_1.chain(with_values)
}

/// So many random pairs of version 2, one in four of them with a cover that breaks chosen rules, and one
/// in forty with as many facts as there may be or nearly; then every kind on values on large members, and
/// the extremes.
fn pairs_with_values(seed: u64, random: usize) -> impl Iterator<Item = Pair> {
    let kinds = sweep::value_pairs(2).into_iter().map(|(_, pair)| pair);
    let extremes = value_extremes().into_iter().map(|(_, pair)| pair);
    let random = random_with_values(seed, random);
    random.chain(kinds).chain(extremes)
}

fn random_with_values(seed: u64, random: usize) -> impl Iterator<Item = Pair> {
    let (fourth, fortieth) = (random / 4, random / 40);
    let broken = broken_pairs(Version::Two, seed).take(fourth);
    let many = many_fact_pairs(seed).take(fortieth);
    let random = ValuedPairs::new(seed).take(random - fourth - fortieth);
    random.chain(broken).chain(many)
}

fn outcome(job: &[u8], certificate: &[u8], verdict: &Verdict) -> String {
    match verdict {
        Verdict::Accepted(counts) => {
            let most = match counts.covers {
                0..=5 => "5",
                6..=50 => "50",
                51..=500 => "500",
                _ => "65,000",
            };
            let links = match counts.links {
                0 => ", no links",
                _ => " with links",
            };
            format!("accepted, up to {most} covers{links}")
        }
        Verdict::Refused(refusal) => match refusal.broken {
            None => format!("refused {:>2}", refusal.number),
            Some(Broken { rule, .. }) => {
                let covered = covered_words(job, certificate, refusal.place);
                format!("refused  9, rule {}, of a {covered}", rule as u8)
            }
        },
    }
}

/// What the cover at a place is to cover.
fn covered_words(job: &[u8], certificate: &[u8], place: usize) -> &'static str {
    let job = Job::read(job).expect("the job of a cover that was judged");
    let cover = cover_at(&job, certificate, place).expect("a cover is refused at its place");
    match cover.owed.reason {
        Reason::Forbidden(_) => "forbidden shape",
        Reason::Before { .. } => "predecessor",
    }
}

#[cfg(test)]
mod tests {
    use std::collections::BTreeMap;

    use super::*;
    use crate::baseline;

    /// The baselines give the reference's verdicts on pairs of version 2, and on those of mixed versions;
    /// each refusal has its share.
    #[test]
    fn baselines_agree_on_pairs_with_values() {
        let mut outcomes = BTreeMap::new();
        for Pair { job, certificate } in random_with_values(0x27_5eed, 12_000) {
            let expected = checker::check(&job, &certificate);
            for check in [baseline::checker::check, baseline::quicker::check] {
                let verdict = check(&job, &certificate);
                assert_eq!(verdict, expected, "job {job:?} certificate {certificate:?}");
            }
            let rule = match expected {
                Verdict::Accepted(_) => None,
                Verdict::Refused(refusal) => refusal.broken.map(|broken| broken.rule as u8),
            };
            *outcomes.entry((expected.number(), rule)).or_insert(0) += 1;
        }
        let refusals = (0..=10).chain([20]).filter(|&number| number != 9);
        let expected = refusals.map(|number| (number, None));
        let expected = expected.chain((1..=6).map(|rule| (9, Some(rule))));
        for outcome in expected {
            let count = outcomes.get(&outcome).copied().unwrap_or(0);
            assert!(count > 10, "{outcome:?}: {count} of {outcomes:?}");
        }
    }
}
