//! The proved library against the reference, on many inputs.

pub mod block_lists;
#[cfg(feature = "carrying")]
pub mod carries;
pub mod joins;
pub mod listings;
pub mod lists;
pub mod numbers;
pub mod ready;
pub mod steps;
pub mod tallies;
pub mod verdicts;

use std::collections::BTreeMap;
use std::fmt::Debug;

/// What an array holds before a call, so that a touched entry shows.
pub const UNTOUCHED: u64 = 0xa5a5_a5a5_a5a5_a5a5;

/// So many entries that aren't lent stand ahead of those that are and behind them.
const BESIDE: usize = 3;

/// How many differences are shown before the rest is left out.
const SHOWN: usize = 10;

/// Counts the cases of one comparison by their outcome, and holds the differences.
pub struct Tally {
    title: String,
    outcomes: BTreeMap<String, u64>,
    differences: u64,
}

impl Tally {
    /// A tally of nothing yet; each of the expected outcomes has to come up, and no other may.
    pub fn new(title: impl Into<String>, expected: &[&str]) -> Tally {
        let outcomes = expected.iter().map(|&name| (name.to_string(), 0));
        Tally {
            title: title.into(),
            outcomes: outcomes.collect(),
            differences: 0,
        }
    }

    /// Takes in one case: its outcome by the reference, both answers, and the input in words.
    pub fn add<T: PartialEq + Debug>(
        &mut self,
        outcome: &str,
        reference: &T,
        library: &T,
        input: impl FnOnce() -> String,
    ) {
        let count = self.outcomes.get_mut(outcome);
        *count.unwrap_or_else(|| panic!("{}: not expected: {outcome}", self.title)) += 1;
        if reference != library {
            self.differences += 1;
            if self.differences <= SHOWN as u64 {
                println!("DIFFERENT: {}: {}", self.title, input());
                println!("  reference: {reference:?}");
                println!("  library:   {library:?}");
            }
        }
    }

    /// Prints the spread; false where something differs or an outcome never came up.
    pub fn report(&self) -> bool {
        let cases: u64 = self.outcomes.values().sum();
        println!("{}: {cases} cases", self.title);
        for (outcome, &count) in &self.outcomes {
            let share = 100.0 * count as f64 / cases.max(1) as f64;
            println!("  {count:>9}  {share:>5.1} %  {outcome}");
        }
        let missing = self.outcomes.values().filter(|&&count| count == 0).count();
        if missing > 0 {
            println!("  NOT TRIED: {missing} outcomes have no case");
        }
        if self.differences > 0 {
            println!("  DIFFERENT: {} cases", self.differences);
        }
        missing == 0 && self.differences == 0
    }
}

/// What is lent, between entries that aren't.
fn between<T: Copy>(other: T, lent: &[T]) -> Vec<T> {
    [&[other; BESIDE], lent, &[other; BESIDE]].concat()
}

/// The part that is lent.
fn lent<T>(whole: &mut [T]) -> &mut [T] {
    let end = whole.len() - BESIDE;
    &mut whole[BESIDE..end]
}

/// Room for so many values that are told.
fn told(out_len: usize) -> Vec<u64> {
    between(UNTOUCHED, &vec![UNTOUCHED; out_len])
}

/// The same with these values, where it is long enough for them.
fn told_as(values: &[u64], out_len: usize) -> Vec<u64> {
    let mut out = told(out_len);
    if let Some(room) = lent(&mut out).get_mut(..values.len()) {
        room.copy_from_slice(values);
    }
    out
}
