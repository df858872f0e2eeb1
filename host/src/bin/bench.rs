//! Measures the proved calls against the baseline, instructions by callgrind and time, and prints
//! tables in markdown.
//!
//! `bench FOLDER`: where the measured pairs and callgrind's counts are written.

use std::env;
use std::path::Path;
use std::process::ExitCode;

#[cfg(feature = "carrying")]
use vorruda_host::bench::carries;
use vorruda_host::bench::suite::Suite;
use vorruda_host::bench::{block_lists, instructions, joins, report, tallies};

fn main() -> ExitCode {
    let arguments: Vec<String> = env::args().skip(1).collect();
    let done = match &arguments[..] {
        [folder] => bench(Path::new(folder)),
        [measured, folder] if measured == instructions::ARGUMENT => {
            instructions::run(Path::new(folder))
        }
        _ => Err("usage: bench FOLDER".to_string()),
    };
    match done {
        Ok(()) => ExitCode::SUCCESS,
        Err(what) => {
            eprintln!("{what}");
            ExitCode::from(2)
        }
    }
}

fn bench(folder: &Path) -> Result<(), String> {
    let mut suite = Suite::new()?;
    let mut lists = block_lists::cases();
    let mut tallies = tallies::Cases::new(suite.corpus_pairs());
    let mut joins = joins::Cases::new(&suite.corpus_pairs())?;
    #[cfg(feature = "carrying")]
    let mut carries = carries::Cases::new(&suite.corpus_pairs());
    let calls = instructions::count(
        &mut suite,
        &mut lists,
        &mut tallies,
        &mut joins,
        #[cfg(feature = "carrying")]
        &mut carries,
        folder,
    )?;
    report::print(
        &mut suite,
        &lists,
        &tallies,
        &joins,
        #[cfg(feature = "carrying")]
        &carries,
        &calls,
    );
    Ok(())
}
