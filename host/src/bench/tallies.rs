//! The calls of the tally: verdicts taken in and the same verdicts alone, and reports.

use std::cell::RefCell;
use std::hint::black_box;
use std::rc::Rc;

use super::refused::{self, FIRST_COVER, SMALLEST};
use super::{Cost, Work};
use crate::library::{self, TallyCalls, TallyVerdict, TALLY_CALLS};
use crate::pairs::Pair;
use crate::reference::tally::NUMBERS;
use crate::{baseline, reference};

/// A verdict alone: job, certificate and out.
type VerdictAlone = fn(&[u8], &[u8], &mut [u64]) -> u32;

/// The longest report. Its fractions have four numbers of ten digits, and take the most divisions to be
/// in lowest terms.
pub const LONGEST: [u32; 4] = [2_971_215_073, 1_836_311_903, 0, 2_971_215_073];

/// The first numbers of tallies that are reported beside that of the corpus: one that has begun, one of
/// two verdicts, and the longest.
const REPORTED: [[u32; 4]; 3] = [[0; 4], [2, 1, 1, 1], LONGEST];

/// Room for every report.
const ROOM: usize = 64;

/// Work with its name, and its instructions once they are counted.
pub struct Case {
    pub name: String,
    pub work: Work<'static>,
    pub instructions: Cost,
}

/// Verdicts on so many pairs, taken in and alone.
pub struct Verdicts {
    pairs: usize,
    pub taken_in: Case,
    pub alone: Case,
}

/// All that is measured.
pub struct Cases {
    pub verdicts: Vec<Verdicts>,
    pub reports: Vec<Case>,
}

impl Cases {
    /// The corpus, the smallest pair and one that is refused; and the reports.
    pub fn new(corpus: Vec<Pair>) -> Cases {
        let small = refused::pairs().into_iter();
        let small = small.filter(|&(name, _)| name == SMALLEST || name == FIRST_COVER);
        let small = small.map(|(name, pair)| Verdicts::new(name, vec![pair]));
        let reported = REPORTED.map(tally_of).into_iter();
        let reported = reported.chain([tally_after(&corpus)]);
        let corpus = Verdicts::new("the corpus", corpus);
        Cases {
            verdicts: [corpus].into_iter().chain(small).collect(),
            reports: reported.map(report).collect(),
        }
    }

    /// All cases, in the order in which they are measured.
    pub fn all(&mut self) -> impl Iterator<Item = &mut Case> {
        let verdicts = self.verdicts.iter_mut();
        let verdicts = verdicts.flat_map(|of| [&mut of.taken_in, &mut of.alone]);
        verdicts.chain(&mut self.reports)
    }
}

impl Verdicts {
    fn new(name: &str, pairs: Vec<Pair>) -> Verdicts {
        let pairs: Rc<[Pair]> = pairs.into();
        let taken_in = Work {
            proved: taking_in(TALLY_CALLS.verdict, &pairs),
            baseline: taking_in(baseline::tally::CALLS.verdict, &pairs),
        };
        let alone = Work {
            proved: judging(library::verdict, &pairs),
            baseline: judging(verdict_of_baseline, &pairs),
        };
        Verdicts {
            pairs: pairs.len(),
            taken_in: Case::new(format!("{name}, taken in"), taken_in),
            alone: Case::new(format!("{name}, alone"), alone),
        }
    }

    /// What taking a verdict in costs beside judging.
    pub fn added(&self) -> Cost {
        let added = |with: f64, without: f64| (with - without) / self.pairs as f64;
        let (with, without) = (self.taken_in.instructions, self.alone.instructions);
        Cost {
            proved: added(with.proved, without.proved),
            baseline: added(with.baseline, without.baseline),
        }
    }
}

impl Case {
    fn new(name: String, work: Work<'static>) -> Case {
        Case {
            name,
            work,
            instructions: Cost::default(),
        }
    }
}

/// The tally whose first numbers are these.
pub fn tally_of(first: [u32; 4]) -> [u32; NUMBERS] {
    let mut tally = [0; NUMBERS];
    tally[..4].copy_from_slice(&first);
    tally
}

/// The tally that has taken these pairs in.
fn tally_after(pairs: &[Pair]) -> [u32; NUMBERS] {
    let mut tally = tally_of([0; 4]);
    for Pair { job, certificate } in pairs {
        library::tally_verdict(job, certificate, &mut tally, &mut []);
    }
    tally
}

/// All pairs, into one tally that goes on from run to run.
fn taking_in(take_in: TallyVerdict, pairs: &Rc<[Pair]>) -> Box<dyn Fn()> {
    let pairs = pairs.clone();
    let tally = RefCell::new([0; NUMBERS]);
    Box::new(move || {
        let mut tally = tally.borrow_mut();
        for Pair { job, certificate } in pairs.iter() {
            let mut out = [0; 4];
            black_box(take_in(job, certificate, &mut tally[..], &mut out));
            black_box(out);
        }
    })
}

fn judging(judge: VerdictAlone, pairs: &Rc<[Pair]>) -> Box<dyn Fn()> {
    let pairs = pairs.clone();
    Box::new(move || {
        for Pair { job, certificate } in pairs.iter() {
            let mut out = [0; 4];
            black_box(judge(job, certificate, &mut out));
            black_box(out);
        }
    })
}

/// The baseline's verdict as the library tells it.
#[inline(never)]
fn verdict_of_baseline(job: &[u8], certificate: &[u8], out: &mut [u64]) -> u32 {
    let verdict = baseline::checker::check(job, certificate);
    if let Some(room) = out.first_chunk_mut() {
        *room = verdict.told();
    }
    verdict.number()
}

/// A report, named by its text.
fn report(tally: [u32; NUMBERS]) -> Case {
    let text = reference::tally::report(&tally, ROOM).unwrap_or_default();
    let work = Work {
        proved: reporting(TALLY_CALLS, tally),
        baseline: reporting(baseline::tally::CALLS, tally),
    };
    Case::new(format!("`{}`", String::from_utf8_lossy(&text)), work)
}

fn reporting(calls: TallyCalls, tally: [u32; NUMBERS]) -> Box<dyn Fn()> {
    let room = RefCell::new([0; ROOM]);
    Box::new(move || {
        let mut out = [0; 2];
        black_box((calls.report)(&tally, &mut room.borrow_mut()[..], &mut out));
        black_box(out);
    })
}

#[cfg(test)]
mod tests {
    use super::*;

    #[test]
    fn names_are_the_reports() {
        let cases = Cases::new(vec![refused::pairs().swap_remove(0).1; 3]);
        let names: Vec<&str> = cases.reports.iter().map(|case| &case.name[..]).collect();
        assert_eq!(
            names,
            [
                "`share none covers none`",
                "`share 1/2 covers 1/1`",
                "`share 1836311903/2971215073 covers 2971215073/1836311903`",
                "`share 1/1 covers 1/1`",
            ]
        );
    }

    #[test]
    fn small_pairs_are_accepted_and_refused() {
        let cases = Cases::new(Vec::new());
        let names = cases.verdicts.iter().map(|of| &of.alone.name[..]);
        let names: Vec<&str> = names.collect();
        assert_eq!(
            names,
            [
                "the corpus, alone",
                "the smallest pair, accepted, alone",
                "the first cover, alone",
            ]
        );
    }
}
