//! `vorruda up` and `vorruda down`: files carried between version 1 and 2, by the proved calls.

use super::files::{self, Files};
use super::{Answer, Status, Subcommand};
use crate::library::carry;
use crate::reference::checker::MOST_BYTES;
use crate::reference::version::Direction;
use crate::refusal_text::refusal_text;
use crate::text::{counted, thousands};

/// What both take: a file and its new name, and the same of a certificate.
const OPERANDS: &str = "JOB NEW_JOB [CERT NEW_CERT]";

pub const UP: Subcommand = Subcommand {
    name: "up",
    operands: OPERANDS,
    count: 2..=4,
    options: &[],
    summary: "carries a job, and its certificate with it, from version 1 to 2",
    description: "The files in version 2 say the same, with no facts. They are accepted exactly if those of version \
1 are, with the same counts, and `vorruda down` gives the old bytes again; all that is proved. A new name may be \
the old one. Where a file is refused or can't be written, none is written.

  vorruda up old/job.bin new/job.bin old/cert.bin new/cert.bin",
    run: |arguments| carried(Direction::Up, &arguments.operands),
};

pub const DOWN: Subcommand = Subcommand {
    name: "down",
    operands: OPERANDS,
    count: 2..=4,
    options: &[],
    summary: "carries a job, and its certificate with it, from version 2 to 1",
    description: "That can be done with files that have nothing which version 1 lacks, operations on values and \
facts; of others the place of the first is told (`vorruda explain 21`). The rest is as for `vorruda up`.

  vorruda down job.bin old_job.bin cert.bin old_cert.bin",
    run: |arguments| carried(Direction::Down, &arguments.operands),
};

/// A file with its name.
struct Named<'a> {
    name: &'a str,
    bytes: Vec<u8>,
}

impl Named<'_> {
    fn read(name: &str) -> Result<Named<'_>, String> {
        let bytes = files::read(name)?;
        Ok(Named { name, bytes })
    }
}

fn carried(direction: Direction, operands: &[String]) -> Result<Answer, String> {
    let job = Named::read(&operands[0])?;
    let mut all = vec![(&operands[1], job_carried(direction, &job))];
    match &operands[2..] {
        [] => {}
        [certificate, new] => {
            let certificate = Named::read(certificate)?;
            all.push((new, certificate_carried(direction, &job, &certificate)));
        }
        _ => return Err("vorruda: a certificate needs a new name, too".to_string()),
    }
    let mut files = Files::default();
    let mut text = String::new();
    for (name, bytes) in all {
        match bytes {
            Ok(bytes) => {
                let length = counted(bytes.len(), "byte");
                text += &format!("{name}: {length}, version {}\n", direction.to().number());
                files.add(name, bytes);
            }
            Err(why) => return Ok(Answer::new(format!("{why}\n"), Status::Refused)),
        }
    }
    files.write()?;
    Ok(Answer::done(text))
}

/// The job in the other version, or why not.
fn job_carried(direction: Direction, job: &Named) -> Result<Vec<u8>, String> {
    let (mut room, mut out) = (vec![0; MOST_BYTES], [0]);
    match carry::job(direction, &job.bytes, &mut room, &mut out) {
        0 => room.truncate(out[0] as usize),
        number => return Err(refused(direction, job, number, out[0])),
    }
    Ok(room)
}

/// The certificate in the other version, or why not. Where its job is refused, that was told before.
fn certificate_carried(
    direction: Direction,
    job: &Named,
    certificate: &Named,
) -> Result<Vec<u8>, String> {
    let (mut room, mut out) = (vec![0; MOST_BYTES], [0; 2]);
    let files = (&job.bytes[..], &certificate.bytes[..]);
    match carry::certificate(direction, files, &mut room, &mut out) {
        0 => room.truncate(out[0] as usize),
        number => return Err(refused(direction, certificate, number, out[0])),
    }
    Ok(room)
}

/// Why a file isn't carried: the number with its place or the length needed, and what it means.
fn refused(direction: Direction, file: &Named, number: u32, value: u64) -> String {
    let name = file.name;
    let [from, to] = [direction.from(), direction.to()].map(|of| of.number());
    let is_other = file
        .bytes
        .first()
        .is_some_and(|&first| u64::from(first) == to);
    match number {
        4 | 7 if value == 0 && is_other => {
            format!("{name}: it is of version {to} already, and not of version {from}")
        }
        12 => format!(
            "{name}: it would have {} bytes in version {to}, and a file has at most {}",
            thousands(value),
            thousands(MOST_BYTES as u64)
        ),
        _ => {
            let text = refusal_text(number).unwrap_or("not carried");
            format!("{name}: refused {number} at {value}: {text}")
        }
    }
}
