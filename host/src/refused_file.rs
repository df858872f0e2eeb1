//! A refusal of a job and a certificate in words: which number of which file it is about, what it has to
//! be, and what is owed.

use crate::draw;
use crate::fields::{of_certificate, of_job, Fault, Why};
use crate::reference::checker::MOST_BYTES;
use crate::reference::cover::owed;
use crate::refusal_text::refusal_text;
use crate::refused_cover::{drawn, RefusedCover};
use crate::routine::Routine;
use crate::text::{counted, thousands};
use crate::verdict::{Files, Refusal, Verdict};

/// What is refused of two files, in paragraphs. There is no routine where the job can't be read.
pub fn words(routine: Option<&Routine>, files: Files, refusal: &Refusal) -> Vec<String> {
    let (job, certificate) = files;
    let found = match (refusal.number, routine) {
        (1, _) => Some(length(job)),
        (2, _) => Some(length(certificate)),
        (3 | 4, _) => of_job(job, None)
            .fault
            .map(|fault| of_fault(&fault, refusal)),
        (5, _) => Some(left(job, refusal.place)),
        (6 | 7, Some(routine)) => of_certificate(certificate, routine)
            .fields
            .fault
            .map(|fault| of_fault(&fault, refusal)),
        (8, Some(routine)) => of_start(routine, certificate, refusal.place),
        (9, Some(routine)) => return of_cover(routine, certificate, refusal),
        (10, _) => Some(left(certificate, refusal.place)),
        (20, _) => Some(format!(
            "The job begins with {}, the certificate with {}",
            job[0], certificate[0]
        )),
        _ => None,
    };
    let text = refusal_text(refusal.number).unwrap_or("a refusal without a text");
    let mut paragraphs = vec![match found {
        Some(found) => format!("{}. {found}.", capital(text)),
        None => format!("{}.", capital(text)),
    }];
    if let (6, Some(routine)) = (refusal.number, routine) {
        paragraphs.extend(owed_next(routine, certificate));
    }
    paragraphs
}

/// What a cover breaks that doesn't hold, and the two shapes.
fn of_cover(routine: &Routine, certificate: &[u8], refusal: &Refusal) -> Vec<String> {
    let verdict = Verdict::Refused(*refusal);
    match RefusedCover::of(routine, certificate, &verdict) {
        Some(cover) => vec![cover.how(), cover.drawn().join("\n")],
        None => Vec::new(),
    }
}

fn length(bytes: &[u8]) -> String {
    let length = counted(bytes.len(), "byte");
    format!(
        "It has {length}; 1 to {} are allowed",
        thousands(MOST_BYTES as u64)
    )
}

fn left(bytes: &[u8], place: usize) -> String {
    let left = counted(bytes.len() - place, "byte");
    format!("{left} from byte {place} on; nothing may follow there")
}

fn of_fault(fault: &Fault, refusal: &Refusal) -> String {
    assert_eq!(fault.place, refusal.place, "it is the first fault");
    capital(&fault.to_string())
}

/// The member that the empty heap satisfies.
fn of_start(routine: &Routine, certificate: &[u8], place: usize) -> Option<String> {
    let groups = of_certificate(certificate, routine).fields.groups;
    let member = groups.iter().find(|group| group.fields[0].place == place)?;
    Some(format!(
        "That is {}. A member at the start state has to have a cell, or a variable at #",
        member.says
    ))
}

/// Where a certificate ends among its covers: the shape that is owed next, and how many are left.
fn owed_next(routine: &Routine, certificate: &[u8]) -> Option<String> {
    let read = of_certificate(certificate, routine);
    let is_at_end = |fault: &Fault| fault.is_of_cover && fault.why == Why::Ends;
    if !read.fields.fault.as_ref().is_some_and(is_at_end) {
        return None;
    }
    let mut left = owed(&routine.job, read.members.iter()).skip(read.covers.len());
    let next = left.next()?;
    // No certificate has as many covers as it may have bytes.
    let count = 1 + left.take(MOST_BYTES).count();
    let count = match count > MOST_BYTES {
        true => format!("more than {} covers", thousands(MOST_BYTES as u64)),
        false => counted(count, "cover"),
    };
    let key = draw::key([&next.covered.shape]);
    let (number, drawn) = (read.covers.len(), drawn(routine, &next, key).join("\n"));
    Some(format!(
        "{count} left to write. Owed next is cover {number}:\n{drawn}"
    ))
}

/// A sentence with a capital letter ahead.
fn capital(text: &str) -> String {
    let mut letters = text.chars();
    let first = letters.next().map(|first| first.to_ascii_uppercase());
    first.into_iter().chain(letters).collect()
}

#[cfg(test)]
mod tests {
    use super::*;
    use crate::check::check;
    use crate::pairs::{Pairs, ValuedPairs};
    use crate::reference::job::Job;

    fn words_on(job: &[u8], certificate: &[u8]) -> (Verdict, Vec<String>) {
        let verdict = check(job, certificate);
        let routine = Job::read(job).ok().map(Routine::of_job);
        let words = match &verdict {
            Verdict::Refused(refusal) => words(routine.as_ref(), (job, certificate), refusal),
            Verdict::Accepted(_) => Vec::new(),
        };
        (verdict, words)
    }

    /// Whatever is refused has words, and the first fault of the walk is where the library says.
    #[test]
    fn all_refusals_have_words() {
        let mut told = [0; 21];
        let pairs = Pairs::new(0xfa11).take(12_000);
        for pair in pairs.chain(ValuedPairs::new(0xfa12).take(12_000)) {
            let (verdict, words) = words_on(&pair.job, &pair.certificate);
            let number = verdict.number();
            assert_eq!(words.is_empty(), number == 0, "{verdict}");
            if let (1..=8 | 10 | 20, [first, ..]) = (number, &words[..]) {
                let text = capital(refusal_text(number).unwrap());
                let detail = first.strip_prefix(&format!("{text}. "));
                assert!(
                    detail.is_some_and(|detail| detail.len() > 10),
                    "{verdict}: {first}"
                );
            }
            if let 3 | 4 | 6 | 7 = number {
                let Verdict::Refused(Refusal { place, .. }) = verdict else {
                    unreachable!("it has a number")
                };
                assert!(
                    words[0].contains(&format!(" byte {place}")),
                    "{verdict}: {words:?}"
                );
            }
            told[number as usize] += 1;
        }
        for number in (0..=10).chain([20]) {
            assert!(told[number] > 10, "{number}: {told:?}");
        }
    }

    const JOB: [u8; 15] = [2, 1, 2, 0, 1, 0, 6, 1, 0, 1, 1, 1, 0, 1, 0];

    #[test]
    fn a_number_out_of_its_range_is_named() {
        let rows: [(usize, u8, &str); 8] = [
            (0, 3, "The version, at byte 0, is 3; it has to be 1 to 2."),
            (1, 9, "The number of variables, at byte 1, is 9; it has to be 1 to 8."),
            (3, 2, "The start state, at byte 3, is 2; it has to be 0 to 1."),
            (6, 14, "The kind of transition 0, at byte 6, is 14; it has to be 1 to 13."),
            (7, 0, "Operand a (kind 6) of transition 0, at byte 7, is 0; it has to be 1."),
            (8, 1, "Operand b (kind 6) of transition 0, at byte 8, is 1; it has to be 0."),
            (12, 13, "The number of cells of forbidden shape 0, at byte 12, is 13; it has to be 0 to 12."),
            (13, 3, "The place of v1 of forbidden shape 0, at byte 13, is 3; it has to be 0 to 2."),
        ];
        for (place, number, wanted) in rows {
            let mut job = JOB;
            job[place] = number;
            let (verdict, words) = words_on(&job, &[2, 1, 1, 0, 1, 0, 0]);
            assert_eq!(verdict.to_string(), format!("refused 4 at {place}"));
            let text = "A number of the job is out of its range. ";
            assert_eq!(words, [format!("{text}{wanted}")]);
        }
    }

    #[test]
    fn images_and_members_out_of_their_range_are_named() {
        let text = "A number of the certificate is out of its range. ";
        let (_, words) = words_on(&JOB, &[2, 1, 1, 0, 1, 0, 1]);
        let wanted = "The member of cover 0, at byte 6, is 1; it has to be 0.";
        assert_eq!(words, [format!("{text}{wanted}")]);
        let (_, words) = words_on(&JOB, &[2, 1, 1, 1, 0, 0, 0, 0, 0]);
        let wanted =
            "The image of cell 0 of cover 0, at byte 8, is 0, but no number is right here.";
        assert_eq!(words, [format!("{text}{wanted}")]);
    }

    /// At its end among the covers a certificate owes some; ahead of them it doesn't say so.
    #[test]
    fn what_is_owed_next() {
        let (verdict, words) = words_on(&JOB, &[2, 1, 1, 0, 1, 0]);
        assert_eq!(verdict.to_string(), "refused 6 at 6");
        let owed = "1 cover left to write. Owed next is cover 0:\nTo be covered at state 1, since \
                    `shape 0` is forbidden (cells from 0, -> is a link or a path):\n       v1 at #";
        assert_eq!(words[1..], [owed]);
        let (verdict, words) = words_on(&JOB, &[2, 1, 1, 0, 1]);
        assert_eq!(verdict.to_string(), "refused 6 at 5");
        assert_eq!(words.len(), 1, "{words:?}");
        // Kind 3 in place of new: the member has a shape before it, which is owed too.
        let mut job = JOB;
        job[6] = 3;
        let (_, words) = words_on(&job, &[2, 1, 1, 0, 1, 0, 0]);
        assert!(
            words[1].starts_with("1 cover left to write. Owed next is cover 1:\n"),
            "{words:?}"
        );
        assert!(
            words[1].contains("`v1 := null` leads from there to member 0"),
            "{words:?}"
        );
    }
}
