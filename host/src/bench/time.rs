//! Measuring time: the median of many runs, the proved call and the baseline in turn.

use std::time::{Duration, Instant};

use super::{Cost, Work};

const ROUNDS: usize = 31;

/// Short work is repeated until a run takes about so long.
const RUN: Duration = Duration::from_micros(100);

/// Nanoseconds for the work once.
pub fn measure(work: &Work) -> Cost {
    let repeats = repeats(&work.baseline);
    let mut proved = Vec::with_capacity(ROUNDS);
    let mut baseline = Vec::with_capacity(ROUNDS);
    for _ in 0..ROUNDS {
        proved.push(run(&work.proved, repeats));
        baseline.push(run(&work.baseline, repeats));
    }
    Cost {
        proved: median(proved),
        baseline: median(baseline),
    }
}

fn repeats(call: &dyn Fn()) -> u32 {
    call();
    let once = run(call, 1).max(1.0);
    (RUN.as_nanos() as f64 / once).clamp(1.0, 10_000.0) as u32
}

fn run(call: &dyn Fn(), repeats: u32) -> f64 {
    let start = Instant::now();
    for _ in 0..repeats {
        call();
    }
    start.elapsed().as_nanos() as f64 / f64::from(repeats)
}

fn median(mut runs: Vec<f64>) -> f64 {
    runs.sort_by(f64::total_cmp);
    runs[runs.len() / 2]
}
