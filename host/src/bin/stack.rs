//! Measures the stack that a call takes: of the checker, alone, with a tally and joining, and of files
//! carried both ways, over the corpus, the costliest pairs, every kind of operation and random pairs; of a
//! tally's report; of the translation
//! over listings at all limits and random ones; of the block list's calls over lists of every length
//! and a ring. Fails where the header promises less.

use std::fs;
use std::path::Path;
use std::process::ExitCode;

use vorruda_host::bench::block_lists::list_of;
use vorruda_host::bench::suite::Suite;
use vorruda_host::bench::tallies::{tally_of, LONGEST};
use vorruda_host::list_library::Edit;
use vorruda_host::listings::{edges, Listings};
use vorruda_host::pairs::{joints, Joint, Pair};
#[cfg(feature = "carrying")]
use vorruda_host::reference::checker::MOST_BYTES;
use vorruda_host::reference::heap::{Heap, Place};
use vorruda_host::reference::listing::MARKS;
use vorruda_host::reference::stepper::{bytes_of, values_of, CELLS};
use vorruda_host::reference::tally::NUMBERS;
#[cfg(feature = "carrying")]
use vorruda_host::reference::version::Direction;
use vorruda_host::stack::depth;
use vorruda_host::{library, list_library};

/// How many random listings and pairs of pairs are measured.
const LISTINGS: usize = 500;
const JOINTS: usize = 500;
const SEED: u64 = 0x0013_5eed;

fn main() -> ExitCode {
    match measured() {
        Ok(rows) => {
            for (call, most, promised) in &rows {
                println!(
                    "{call}: at most {most} bytes of stack; the header promises less than {promised}"
                );
            }
            let is_kept = rows.iter().all(|(_, most, promised)| most < promised);
            ExitCode::from(u8::from(!is_kept))
        }
        Err(what) => {
            eprintln!("{what}");
            ExitCode::from(2)
        }
    }
}

const HEADER: &str = "vorruda.h";
const LIST_HEADER: &str = "vorruda_list.h";

/// The most that the calls took, each with what its header promises.
fn measured() -> Result<Vec<(&'static str, usize, usize)>, String> {
    let mut suite = Suite::new()?;
    let of_checker = suite.cases().map(|case| of_pair(&case.pair)).max();
    let of_tally = suite.cases().map(|case| of_taking_in(&case.pair)).max();
    #[cfg(feature = "carrying")]
    let of_jobs = suite.cases().map(|case| of_job_carried(&case.pair)).max();
    #[cfg(feature = "carrying")]
    let of_certificates = suite
        .cases()
        .map(|case| of_certificate_carried(&case.pair))
        .max();
    let of_both = suite.cases().map(|case| of_join(&twice(&case.pair))).max();
    let of_joints = joints(SEED).take(JOINTS).map(|joint| of_join(&joint)).max();
    let listings = edges()
        .into_iter()
        .chain(Listings::new(SEED).take(LISTINGS));
    let of_translation = listings.map(|text| of_listing(&text)).max();
    let mut ring = list_of(CELLS);
    ring.links.insert(0, Place::Cell(0));
    let of_lists = (0..=CELLS).map(list_of).chain([ring]);
    let of_lists = of_lists.map(|heap| of_list(&heap)).max();
    Ok(vec![
        (
            "the checker",
            of_checker.ok_or("there is no pair")?,
            promised(HEADER, "vorruda_verdict(")?,
        ),
        (
            "the tally",
            of_tally.ok_or("there is no pair")?,
            promised(HEADER, "vorruda_tally_verdict(")?,
        ),
        (
            "a tally's report",
            of_report(&tally_of(LONGEST)),
            promised(HEADER, "vorruda_tally_report(")?,
        ),
        #[cfg(feature = "carrying")]
        (
            "a job carried",
            of_jobs.ok_or("there is no pair")?,
            promised(HEADER, "vorruda_job_up(")?,
        ),
        #[cfg(feature = "carrying")]
        (
            "a certificate carried",
            of_certificates.ok_or("there is no pair")?,
            promised(HEADER, "vorruda_certificate_up(")?,
        ),
        (
            "a join",
            of_both.max(of_joints).ok_or("there is no pair")?,
            promised(HEADER, "vorruda_join(")?,
        ),
        (
            "the translation",
            of_translation.ok_or("there is no listing")?,
            promised(HEADER, "vorruda_translate(")?,
        ),
        (
            "the block list",
            of_lists.ok_or("there is no list")?,
            promised(LIST_HEADER, "vorruda_list_count(")?,
        ),
    ])
}

fn of_listing(text: &[u8]) -> usize {
    let mut room = [0; 1_024];
    depth(|| {
        library::translate(text, &mut room, &mut [0; MARKS], &mut [0]);
    })
}

/// What the deeper of the two calls takes.
fn of_pair(Pair { job, certificate }: &Pair) -> usize {
    let checked = depth(|| {
        library::check(job, certificate);
    });
    let judged = depth(|| {
        library::verdict(job, certificate, &mut [0; 4]);
    });
    checked.max(judged)
}

fn of_taking_in(Pair { job, certificate }: &Pair) -> usize {
    let mut tally = [0; NUMBERS];
    depth(|| {
        library::tally_verdict(job, certificate, &mut tally, &mut [0; 4]);
    })
}

/// What the deeper way takes; only one is for the version that the job has.
#[cfg(feature = "carrying")]
fn of_job_carried(pair: &Pair) -> usize {
    let mut room = vec![0; MOST_BYTES];
    let ways = Direction::BOTH.map(|direction| {
        depth(|| {
            library::carry::job(direction, &pair.job, &mut room, &mut [0]);
        })
    });
    ways[0].max(ways[1])
}

/// The same for its certificate; where the pair goes up, it comes down again.
#[cfg(feature = "carrying")]
fn of_certificate_carried(pair: &Pair) -> usize {
    let mut room = vec![0; MOST_BYTES];
    let carried = pair.carried(Direction::Up);
    let pairs = [Some(pair), carried.as_ref()].into_iter().flatten();
    let mut deepest = 0;
    for (pair, direction) in pairs.flat_map(|pair| Direction::BOTH.map(|way| (pair, way))) {
        deepest = deepest.max(depth(|| {
            library::carry::certificate(direction, pair.files(), &mut room, &mut [0; 2]);
        }));
    }
    deepest
}

/// A pair joined with itself.
fn twice(pair: &Pair) -> Joint {
    Joint {
        first: pair.clone(),
        second: pair.clone(),
        state: 0,
    }
}

fn of_join(joint: &Joint) -> usize {
    let [first, second] = joint.files();
    depth(|| {
        library::join(first, second, joint.state, &mut [0; 8]);
    })
}

fn of_report(tally: &[u32]) -> usize {
    let mut text = [0; 64];
    depth(|| {
        library::tally_report(tally, &mut text, &mut [0; 2]);
    })
}

/// What the deepest of the three calls takes, the edits at the end of the list.
fn of_list(heap: &Heap) -> usize {
    let n = heap.links.len() as u32;
    let by = |call: Edit| {
        let (mut bytes, mut values) = (bytes_of(heap), values_of(heap));
        depth(|| {
            call(&mut bytes, &mut values, n);
        })
    };
    let counted = by(|bytes, values, _| list_library::count(bytes, values, &mut [0]));
    let edited = by(list_library::insert).max(by(list_library::remove));
    counted.max(edited)
}

/// The bytes of the last "less than N KiB of stack" ahead of a declaration in a header.
fn promised(header: &str, declaration: &str) -> Result<usize, String> {
    let folder = Path::new(env!("CARGO_MANIFEST_DIR")).join("../include");
    let text = fs::read_to_string(folder.join(header));
    let text = text.map_err(|error| format!("{header}: {error}"))?;
    let figure = text
        .split_once(declaration)
        .and_then(|(before, _)| before.rsplit_once(" KiB of stack"))
        .and_then(|(before, _)| before.rsplit_once("less than "))
        .and_then(|(_, figure)| figure.parse::<usize>().ok());
    figure
        .map(|kib| kib * 1024)
        .ok_or_else(|| format!("{header} names no stack ahead of {declaration}"))
}
