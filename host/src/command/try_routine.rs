//! `vorruda try`: from the text of a routine, or of two, to a verdict.

use std::path::Path;

use super::files::Files;
use super::progress;
use super::{tell, tell_two, Answer, Choice, Status, Subcommand};
use crate::corpus;
use crate::joining::{Joined, Listings};
use crate::judge::{judge_telling, Ending, Judged};
use crate::pairs::Pair;
use crate::routine::Routine;
use crate::search::attempts::Tried;
use crate::verdict::JoinVerdict;

pub const TRY: Subcommand = Subcommand {
    name: "try",
    operands: "LISTING",
    count: 1..=1,
    options: &[
        Choice {
            name: "--then",
            value: Some("LISTING"),
            is_required: false,
            summary: "a second listing, which starts at the first's last mark with what the first leaves: \
both are judged as one program",
        },
        Choice {
            name: "-o",
            value: Some("DIR"),
            is_required: false,
            summary: "writes job.bin and cert.bin there; with --then, or where a routine is certified in several \
jobs, job1.bin, cert1.bin, job2.bin and so on. Where there is no certificate the jobs alone are written, and certificates of before go",
        },
    ],
    summary: "certifies a routine, or draws the run that goes wrong",
    description: "It looks for a run that meets what is forbidden, and for a certificate that there is \
none. A certificate is judged by the proved checker, and in a sentence it is said what can't happen. A run \
that goes wrong is drawn step by step. Where there is neither, the chain of shapes is drawn that shows why, \
or the limits are told that the search came to, with what can be done.

Ahead of the verdict it warns of what may not be meant: a mark that no run reaches, a line at which a run \
stops, with that run. All mistakes of a file are told at once, with their lines and what would be right.

  vorruda try my.listing -o out
  vorruda try load.listing --then edit.listing",
    run: |arguments| {
        let name = &arguments.operands[0];
        let folder = arguments.value("-o").map(Path::new);
        match arguments.value("--then") {
            Some(second) => try_two([name, second], folder),
            None => try_one(name, folder),
        }
    },
};

fn try_one(name: &str, folder: Option<&Path>) -> Result<Answer, String> {
    let routine = corpus::find(name)?.routine;
    let (judged, tried) = judge_showing(&routine);
    let ending = &judged.ending;
    if let Some(folder) = folder {
        write(&routine, ending, folder)?;
    }
    let status = match ending.is_accepted() {
        true => Status::Done,
        false => Status::Refused,
    };
    let mut text = tell::heading(name, &routine);
    let told = tell::warn(&mut text, &routine, &judged.outlook)
        .and_then(|()| tell::ending(&mut text, name, &routine, ending))
        .and_then(|()| match ending {
            Ending::Undecided(..) => tell::tried(&mut text, &tried),
            _ => Ok(()),
        });
    told.expect("a string takes all");
    Ok(Answer::new(text, status))
}

/// Judges a routine, and shows on a terminal how far that is. Gives what was tried, too.
fn judge_showing(routine: &Routine) -> (Judged, Vec<Tried>) {
    let mut tried = Vec::new();
    progress::show("searching");
    let judged = judge_telling(routine, &mut |attempt| {
        progress::show(&attempt.to_string());
        tried.push(attempt);
    });
    progress::clear();
    (judged, tried)
}

/// Two listings as one.
fn try_two(names: [&str; 2], folder: Option<&Path>) -> Result<Answer, String> {
    let [first, second] = names.map(corpus::find);
    let listings = Listings::of(first?.routine, second?.routine)?;
    progress::show("searching");
    let (judged, joined) = listings.judge();
    progress::clear();
    if let Some(folder) = folder {
        write_two(&listings, &joined, folder)?;
    }
    let [first, second] = names;
    let mut text = tell::heading(first, &listings.first) + &tell::heading(second, &listings.second);
    let told = tell::warn(&mut text, &listings.whole, &judged.outlook)
        .and_then(|()| tell_two::joined(&mut text, names, &listings, &judged.ending, &joined));
    told.expect("a string takes all");
    let status = match &joined {
        Joined::Pairs(pairs) if matches!(pairs.verdict, JoinVerdict::Joined(..)) => Status::Done,
        _ => Status::Refused,
    };
    Ok(Answer::new(text, status))
}

/// Writes job.bin and cert.bin; of a routine that is certified in several jobs, the pair of each.
fn write(routine: &Routine, ending: &Ending, folder: &Path) -> Result<(), String> {
    let pairs = ending.pairs(routine);
    if pairs.len() > 1 {
        let all = pairs
            .into_iter()
            .map(|pair| (pair.job, Some(pair.certificate)));
        return write_numbered(all, folder);
    }
    let certificate = pairs.into_iter().next().map(|pair| pair.certificate);
    let mut files = Files::default();
    files.add(folder.join("job.bin"), routine.job.bytes());
    files.add_or_remove(folder.join("cert.bin"), certificate);
    files.write()
}

/// Writes the pairs of two listings, or the jobs alone.
fn write_two(listings: &Listings, joined: &Joined, folder: &Path) -> Result<(), String> {
    let pairs = match joined {
        Joined::Pairs(pairs) => [&pairs.first, &pairs.second].map(|draft| {
            let Pair { job, certificate } = draft.pair();
            (job, Some(certificate))
        }),
        Joined::TooMany(_) | Joined::Neither => {
            [&listings.first, &listings.second].map(|routine| (routine.job.bytes(), None))
        }
    };
    write_numbered(pairs, folder)
}

/// Writes job1.bin, cert1.bin, job2.bin and so on. A pair of before, without a number, goes.
fn write_numbered(
    pairs: impl IntoIterator<Item = (Vec<u8>, Option<Vec<u8>>)>,
    folder: &Path,
) -> Result<(), String> {
    let mut files = Files::default();
    for (number, (job, certificate)) in (1..).zip(pairs) {
        files.add(folder.join(format!("job{number}.bin")), job);
        files.add_or_remove(folder.join(format!("cert{number}.bin")), certificate);
    }
    for name in ["job.bin", "cert.bin"] {
        files.add_or_remove(folder.join(name), None);
    }
    files.write()
}
