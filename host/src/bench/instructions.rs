//! Counting instructions: the process runs itself under callgrind, which counts within
//! [`vorruda_measured`] and dumps a count each time it ends.

use std::env;
use std::fs;
use std::hint::black_box;
use std::io;
use std::path::Path;
use std::process::{Command, Stdio};

#[cfg(feature = "carrying")]
use super::carries;
use super::suite::{read_pairs, write_pairs, Suite};
use super::{block_lists, calls, check_quickly, joins, tallies, Cost, Work};

/// The argument with which the process does the measured work.
pub const ARGUMENT: &str = "measured";

/// The file with the suite's pairs, the one with those of the corpus alone, and the one with those that
/// are joined.
const PAIRS: &str = "pairs.bin";
const CORPUS: &str = "corpus.bin";
const JOINED: &str = "joined.bin";

/// Callgrind finds it by this name.
#[no_mangle]
#[inline(never)]
fn vorruda_measured(work: &dyn Fn()) {
    work();
    black_box(());
}

/// What is counted in a run: an empty work, then each pair in turn, then the calls of the block list and
/// of the tally, the joins, the files carried, then the other calls.
pub fn run(folder: &Path) -> Result<(), String> {
    let read = |file| read_pairs(&folder.join(file)).map_err(|error| error.to_string());
    let (pairs, corpus, joined) = (read(PAIRS)?, read(CORPUS)?, read(JOINED)?);
    vorruda_measured(&|| ());
    for pair in &pairs {
        measure(&Work::of_pair(pair));
        measure_call(&|| check_quickly(pair));
    }
    for case in block_lists::cases() {
        case.counted().iter().for_each(|call| measure_call(call));
    }
    for case in tallies::Cases::new(corpus.clone()).all() {
        measure(&case.work);
    }
    for joint in joins::joints(&joined) {
        measure(&joins::work(&joint));
        measure_call(&joins::alone(&joint));
    }
    #[cfg(feature = "carrying")]
    for case in carries::Cases::new(&corpus).all() {
        measure(&case.work());
        measure_call(&|| case.check());
    }
    for (_, work) in calls::works() {
        measure(&work);
    }
    Ok(())
}

fn measure(work: &Work) {
    measure_call(&work.proved);
    measure_call(&work.baseline);
}

/// Once before it counts, so that what a first call costs more is left out.
fn measure_call(call: &dyn Fn()) {
    call();
    vorruda_measured(call);
}

const TOO_LITTLE: &str = "callgrind counted too little";

/// Counts the instructions of each pair of the suite, of the calls of the block list and of the tally, of
/// the joins and of the files carried, and gives those of the other calls.
pub fn count(
    suite: &mut Suite,
    lists: &mut [block_lists::Case],
    tallies: &mut tallies::Cases,
    joins: &mut joins::Cases,
    #[cfg(feature = "carrying")] carries: &mut carries::Cases,
    folder: &Path,
) -> Result<Vec<Cost>, String> {
    let pairs = suite.cases().map(|case| &case.pair);
    write_pairs(&folder.join(PAIRS), pairs).map_err(|error| error.to_string())?;
    write_pairs(&folder.join(CORPUS), &suite.corpus_pairs()).map_err(|error| error.to_string())?;
    let joined = joins::pairs(joins.all().map(|case| &case.joint));
    write_pairs(&folder.join(JOINED), &joined).map_err(|error| error.to_string())?;
    let counts = callgrind(folder)?;
    let (empty, counts) = counts.split_first().ok_or("callgrind counted nothing")?;
    let mut counts = counts.iter().map(|count| count - empty);
    for case in suite.cases() {
        case.instructions = cost(&mut counts).ok_or(TOO_LITTLE)?;
        case.quicker = counts.next().ok_or(TOO_LITTLE)?;
    }
    for case in lists {
        let of_case: Vec<f64> = counts.by_ref().take(4).collect();
        case.set_counts(of_case.try_into().map_err(|_| TOO_LITTLE)?);
    }
    for case in tallies.all() {
        case.instructions = cost(&mut counts).ok_or(TOO_LITTLE)?;
    }
    for case in joins.all() {
        case.joined = cost(&mut counts).ok_or(TOO_LITTLE)?;
        case.alone = counts.next().ok_or(TOO_LITTLE)?;
    }
    #[cfg(feature = "carrying")]
    for case in carries.all() {
        case.carried = cost(&mut counts).ok_or(TOO_LITTLE)?;
        case.checked = counts.next().ok_or(TOO_LITTLE)?;
    }
    Ok(std::iter::from_fn(|| cost(&mut counts)).collect())
}

/// The next two counts.
fn cost(counts: &mut impl Iterator<Item = f64>) -> Option<Cost> {
    Some(Cost {
        proved: counts.next()?,
        baseline: counts.next()?,
    })
}

/// Runs the process itself under callgrind, and gives the counts in their order.
fn callgrind(folder: &Path) -> Result<Vec<f64>, String> {
    let file = folder.join("callgrind.out");
    let itself = env::current_exe().map_err(|error| error.to_string())?;
    let status = Command::new("valgrind")
        .args(["--tool=callgrind", "--combine-dumps=yes", "--quiet"])
        .arg("--toggle-collect=vorruda_measured")
        .arg("--dump-after=vorruda_measured")
        .arg(format!("--callgrind-out-file={}", file.display()))
        .arg(itself)
        .args([ARGUMENT.as_ref(), folder])
        .stdin(Stdio::null())
        .status()
        .map_err(|error| format!("valgrind: {error}"))?;
    match status.success() {
        true => read_counts(&file).map_err(|error| error.to_string()),
        false => Err(format!("callgrind ends with {status}")),
    }
}

/// The counts of all dumps but the last, which is that of the process's end.
fn read_counts(file: &Path) -> io::Result<Vec<f64>> {
    let text = fs::read_to_string(file)?;
    let totals = text
        .lines()
        .filter_map(|line| line.strip_prefix("totals: "));
    let mut counts: Vec<f64> = totals.filter_map(|count| count.parse().ok()).collect();
    counts.pop();
    Ok(counts)
}
