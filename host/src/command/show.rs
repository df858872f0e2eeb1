//! `vorruda show`: a job and a certificate as text, with the place of each number. `vorruda pack` makes the
//! files of it again.

use super::files;
use super::operand::JobOf;
use super::{Answer, Subcommand};
use crate::fields::{of_certificate, of_job, Fault, Fields, Group};
use crate::reference::number::byte_count;
use crate::text::counted;

pub const SHOW: Subcommand = Subcommand {
    name: "show",
    operands: "JOB [CERT]",
    count: 1..=2,
    options: &[],
    summary: "prints a job, and a certificate for it, as text with the place of each number",
    description: "A line begins with the place of its first number and a colon; the numbers follow, and \
from ; on it is said what they are. Every number takes one byte, but the last of a line may take two or \
three; so the k-th number of a line, from 0, is k bytes behind its place. From the first number on that \
can't be read or is out of its range, bytes are shown as they are, in hex behind an x; so are those of a \
certificate whose job can't be read.

Any files can be shown, and `vorruda pack` makes the same bytes of the text again. It looks neither at the \
places nor at what stands from ; on.",
    run: |arguments| {
        let job = JobOf::read(&arguments.operands[0])?;
        let certificate = arguments.operands.get(1).map(|name| files::read(name));
        Ok(Answer::done(text(&job, certificate.transpose()?.as_deref())))
    },
};

/// The lines ahead of a file's numbers.
pub const JOB: &str = "job";
pub const CERTIFICATE: &str = "certificate";

/// What ends the place of a line, begins what isn't packed, and a byte.
pub const PLACE: char = ':';
pub const REMARK: char = ';';
pub const BYTE: char = 'x';

const BYTES_IN_LINE: usize = 16;

/// A job as text, and a certificate if there is one.
pub fn text(job: &JobOf, certificate: Option<&[u8]>) -> String {
    let fields = of_job(&job.bytes, job.routine.as_ref());
    let job_text = file(JOB, &job.bytes, Some(&fields));
    let certificate_text = certificate.map(|bytes| {
        let routine = job.routine.as_ref();
        let fields = routine.map(|routine| of_certificate(bytes, routine).fields);
        file(CERTIFICATE, bytes, fields.as_ref())
    });
    job_text + &certificate_text.unwrap_or_default()
}

/// A file as text; nothing is known of its numbers where the job can't be read.
fn file(name: &str, bytes: &[u8], fields: Option<&Fields>) -> String {
    let length = counted(bytes.len(), "byte");
    let (groups, end, fault) = match fields {
        Some(Fields { groups, end, fault }) => {
            (&groups[..], *end, fault.as_ref().map(Fault::to_string))
        }
        None => (&[][..], 0, Some(WITHOUT_JOB.to_string())),
    };
    let groups: String = groups.iter().map(group).collect();
    format!(
        "{name} {REMARK} {length}\n{groups}{}",
        rest(bytes, end, fault)
    )
}

const WITHOUT_JOB: &str = "the job can't be read, and so the certificate can't";

/// The lines of a group. All numbers of a line but the last have one byte.
fn group(Group { fields, says }: &Group) -> String {
    let lines = fields.split_inclusive(|field| byte_count(field.number) > 1);
    let lines = lines.map(|fields| {
        let numbers: Vec<String> = fields
            .iter()
            .map(|field| field.number.to_string())
            .collect();
        line(fields[0].place, &numbers)
    });
    let lines: Vec<String> = lines.collect();
    let (first, others) = lines.split_first().expect("a group has a number");
    let others: String = others.iter().map(|line| format!("{line}\n")).collect();
    format!("{first} {REMARK} {says}\n{others}")
}

/// The bytes behind the groups, and why they are none.
fn rest(bytes: &[u8], end: usize, fault: Option<String>) -> String {
    let left = (end < bytes.len()).then(|| "left over".to_string());
    let says = match fault.or(left) {
        Some(says) => format!("{REMARK} {says}\n"),
        None => String::new(),
    };
    let chunks = bytes[end..].chunks(BYTES_IN_LINE).enumerate();
    let lines = chunks.map(|(number, chunk)| {
        let raw: Vec<String> = chunk
            .iter()
            .map(|byte| format!("{BYTE}{byte:02x}"))
            .collect();
        line(end + BYTES_IN_LINE * number, &raw) + "\n"
    });
    says + &lines.collect::<String>()
}

fn line(place: usize, words: &[String]) -> String {
    format!("{place:5}{PLACE} {}", words.join(" "))
}

#[cfg(test)]
mod tests {
    use super::super::pack::parts;
    use super::*;
    use crate::corpus;
    use crate::pairs::{accepted_pairs, damaged_copies, Pair, Pairs, ValuedPairs};
    use crate::reference::version::Version;

    /// What is shown is packed to the same bytes, and each number stands where its line says.
    fn assert_comes_back(pair: &Pair) {
        let job = JobOf::of_bytes(pair.job.clone());
        let text = text(&job, Some(&pair.certificate));
        let files = parts(&text).unwrap();
        assert_eq!(files, [&pair.job[..], &pair.certificate], "{text}");
        assert_eq!(parts(&super::text(&job, None)).unwrap(), [&pair.job[..]]);
        let (of_job, of_certificate) = text.split_once("\ncertificate ;").unwrap();
        for (lines, bytes) in [(of_job, &pair.job), (of_certificate, &pair.certificate)] {
            assert_places(lines, bytes);
        }
    }

    /// Each line has the bytes from its place on.
    fn assert_places(lines: &str, bytes: &[u8]) {
        for line in lines.lines() {
            let (code, _) = line.split_once(REMARK).unwrap_or((line, ""));
            let Some((place, words)) = code.split_once(PLACE) else {
                continue;
            };
            let place: usize = place.trim().parse().unwrap();
            let first = words.split_whitespace().next().unwrap();
            let first = parts(&format!("{JOB}\n{first}\n")).unwrap().concat();
            assert!(bytes[place..].starts_with(&first), "{line}");
        }
    }

    #[test]
    fn whatever_is_shown_is_packed_again() {
        for version in [Version::One, Version::Two] {
            accepted_pairs(version, 0x5107)
                .take(50)
                .for_each(|pair| assert_comes_back(&pair));
        }
        let damaged = Pairs::new(0x5108).take(2_000);
        damaged
            .chain(ValuedPairs::new(0x5109).take(2_000))
            .for_each(|pair| assert_comes_back(&pair));
    }

    #[test]
    fn the_corpus_is_packed_again_whole_and_damaged() {
        let certified = corpus::certified().unwrap();
        assert!(certified.len() > 50);
        for (_, pair) in certified {
            assert_comes_back(&pair);
            damaged_copies(&pair, 7)
                .take(5)
                .for_each(|pair| assert_comes_back(&pair));
        }
    }
}
