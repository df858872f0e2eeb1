//! The outcomes of files carried, by name.

use super::Case;
use crate::pairs::Pair;
use crate::reference::carry::{Carried, File};
use crate::reference::checker::{check, MOST_BYTES};
use crate::reference::job::Job;
use crate::reference::version::Direction;

/// Refusals of a file that can't be read; of another version it has an outcome of its own.
const JOB_REFUSALS: [u32; 4] = [1, 3, 4, 5];
const CERTIFICATE_REFUSALS: [u32; 4] = [2, 6, 7, 10];

const OTHER_VERSION: &str = "the other version";
const TOO_LONG: &str = "above 65,536 bytes";
const KIND: &str = "a kind";
const FACTS: &str = "facts of the job";
const MEMBER_FACTS: &str = "facts of the certificate";

/// How a pair that is carried is judged.
const JUDGED: [&str; 3] = ["accepted", "refused 8", "refused 9"];

/// The names of all outcomes of calls.
pub fn of_calls() -> Vec<String> {
    let mut outcomes = Vec::new();
    for direction in Direction::BOTH {
        let mut add = |file, words: String| outcomes.push(named(direction, file, &words));
        add(File::Job, "written".to_string());
        for judged in JUDGED {
            add(File::Certificate, format!("written, {judged}"));
        }
        for number in JOB_REFUSALS {
            add(File::Job, refused(number, ""));
        }
        for number in JOB_REFUSALS.into_iter().chain(CERTIFICATE_REFUSALS) {
            add(File::Certificate, refused(number, ""));
        }
        add(File::Certificate, refused(7, OTHER_VERSION));
        let lacking = match direction {
            Direction::Up => &[][..],
            Direction::Down => &[KIND, FACTS],
        };
        for file in [File::Job, File::Certificate] {
            add(file, refused(4, OTHER_VERSION));
            add(file, refused(12, ""));
            lacking.iter().for_each(|what| add(file, refused(21, what)));
        }
        match direction {
            Direction::Up => add(File::Certificate, refused(12, TOO_LONG)),
            Direction::Down => add(File::Certificate, refused(21, MEMBER_FACTS)),
        }
    }
    outcomes
}

fn named(direction: Direction, file: File, words: &str) -> String {
    format!("{file:?} {direction:?}, {words}").to_lowercase()
}

fn refused(number: u32, what: &str) -> String {
    let number = format!("refused {number:>2}");
    match what {
        "" => number,
        what => format!("{number}, {what}"),
    }
}

/// The outcome's name of a case.
pub fn of_case(case: Case, carried: &Carried) -> String {
    let Case {
        direction,
        file,
        pair,
    } = case;
    let words = match (carried, file) {
        (Ok(_), File::Job) => "written".to_string(),
        (Ok(_), File::Certificate) => format!("written, {}", judged(pair)),
        (Err(not), _) => {
            let is_other = |bytes: &[u8]| bytes[0] == direction.to() as u8;
            let what = match not.number {
                4 if not.value == 0 && is_other(&pair.job) => OTHER_VERSION,
                7 if not.value == 0 && is_other(&pair.certificate) => OTHER_VERSION,
                12 if not.value > MOST_BYTES => TOO_LONG,
                21 => lacking(pair, not.value, not.file),
                _ => "",
            };
            refused(not.number, what)
        }
    };
    named(direction, file, &words)
}

/// How a pair that can be read is judged.
pub fn judged(pair: &Pair) -> &'static str {
    match check(&pair.job, &pair.certificate).number() {
        0 => JUDGED[0],
        8 => JUDGED[1],
        _ => JUDGED[2],
    }
}

/// What it is at a place that version 1 lacks.
fn lacking(pair: &Pair, place: usize, file: File) -> &'static str {
    let ahead = |job: Job| job.bytes_ahead().len();
    match (file, Job::read(&pair.job).map(ahead)) {
        (File::Certificate, _) => MEMBER_FACTS,
        (File::Job, Ok(ahead)) if place < ahead => KIND,
        (File::Job, _) => FACTS,
    }
}

/// Those of round trips.
pub fn of_trips() -> Vec<String> {
    let ways = Direction::BOTH.into_iter();
    ways.flat_map(|way| JUDGED.map(|judged| of_trip(way, judged)))
        .collect()
}

/// The outcome's name of a round trip.
pub fn of_trip(direction: Direction, judged: &str) -> String {
    format!("{direction:?} and {:?}, {judged}", direction.back()).to_lowercase()
}
