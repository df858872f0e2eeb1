//! The benchmark: the proved calls against the baseline, on the same input.

pub mod block_lists;
pub mod broken;
pub mod calls;
#[cfg(feature = "carrying")]
pub mod carries;
pub mod growth;
pub mod instructions;
pub mod joins;
pub mod refused;
pub mod report;
pub mod suite;
pub mod tallies;
pub mod time;

use std::hint::black_box;

use crate::pairs::Pair;
use crate::{baseline, library};

/// The same work by a proved call and by the baseline.
pub struct Work<'a> {
    pub proved: Box<dyn Fn() + 'a>,
    pub baseline: Box<dyn Fn() + 'a>,
}

impl<'a> Work<'a> {
    /// Checks a pair.
    pub fn of_pair(pair: &'a Pair) -> Work<'a> {
        let Pair { job, certificate } = pair;
        Work {
            proved: Box::new(|| {
                black_box(library::check(job, certificate));
            }),
            baseline: Box::new(|| {
                black_box(baseline::checker::check(job, certificate));
            }),
        }
    }
}

/// Checks a pair by the quicker baseline.
pub fn check_quickly(pair: &Pair) {
    black_box(baseline::quicker::check(&pair.job, &pair.certificate));
}

/// What the work costs, in instructions or nanoseconds.
#[derive(Clone, Copy, Debug, Default, PartialEq)]
pub struct Cost {
    pub proved: f64,
    pub baseline: f64,
}

impl Cost {
    pub fn ratio(&self) -> f64 {
        self.proved / self.baseline
    }
}

impl std::iter::Sum for Cost {
    fn sum<I: Iterator<Item = Cost>>(costs: I) -> Cost {
        costs.fold(Cost::default(), |sum, cost| Cost {
            proved: sum.proved + cost.proved,
            baseline: sum.baseline + cost.baseline,
        })
    }
}
