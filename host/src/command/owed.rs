//! `vorruda owed`: the covers that a certificate owes, drawn, and which of them it lacks.

use super::operand::PairOf;
use super::{Answer, Choice, Status, Subcommand};
use crate::check::check;
use crate::draw;
use crate::fields::{of_certificate, CertificateFields, Why};
use crate::reference::checker::MOST_BYTES;
use crate::reference::cover::owed;
use crate::refused_cover::drawn;
use crate::routine::Routine;
use crate::text::counted;
use crate::verdict::{Refusal, Verdict};

pub const OWED: Subcommand = Subcommand {
    name: "owed",
    operands: "JOB CERT",
    count: 2..=2,
    options: &[Choice {
        name: "--missing",
        value: None,
        is_required: false,
        summary: "leaves out the covers that are there, but for one that is refused",
    }],
    summary: "tells which covers a certificate owes, drawn, and which are missing",
    description: "The first line is the proved checker's verdict. Then come the covers in their order, \
numbered from 0: what is to be covered, and at which byte the cover stands, or that it is missing. A \
certificate that ends behind its members can be shown too. Where the job or the members can't be read, the \
exit status is 2.

  vorruda owed my.listing cert.bin --missing",
    run: |arguments| {
        let [name, file] = &arguments.operands[..] else {
            unreachable!("there are two operands")
        };
        let pair = PairOf::read(name, file)?;
        let (job, certificate) = pair.files();
        let verdict = check(job, certificate);
        let unread = |name: &str| match &verdict {
            Verdict::Refused(refusal) => {
                format!("{name}: {verdict}\n{}", pair.words(refusal).join("\n"))
            }
            Verdict::Accepted(_) => unreachable!("what is accepted can be read"),
        };
        let routine = pair.job.routine.as_ref().ok_or_else(|| unread(name))?;
        let read = of_certificate(certificate, routine);
        if stops_ahead_of_covers(&read, &verdict) {
            return Err(unread(file));
        }
        let is_short = arguments.is_given("--missing");
        let text = format!("{verdict}\n{}", told(routine, &read, &verdict, is_short));
        Ok(Answer::new(text, Status::of(&verdict)))
    },
};

/// Whether no cover can be told, since the members aren't all there or are of another version.
fn stops_ahead_of_covers(read: &CertificateFields, verdict: &Verdict) -> bool {
    let fault = read.fields.fault.as_ref();
    matches!(verdict.number(), 2 | 20) || fault.is_some_and(|fault| !fault.is_of_cover)
}

/// All covers in turn, and how many there are.
fn told(routine: &Routine, read: &CertificateFields, verdict: &Verdict, is_short: bool) -> String {
    let lacking = match &read.fields.fault {
        Some(fault) if fault.why != Why::Ends => format!("not read, since {fault}"),
        _ => "missing".to_string(),
    };
    let mut text = String::new();
    let mut count = 0;
    // No certificate has more covers than it may have bytes.
    for owed in owed(&routine.job, read.members.iter()).take(MOST_BYTES) {
        let stands = match read.covers.get(count) {
            Some(place) => match refuses_cover(verdict, *place) {
                true => Some(format!("at byte {place}, refused")),
                false => (!is_short).then(|| format!("at byte {place}")),
            },
            None => Some(lacking.clone()),
        };
        if let Some(stands) = stands {
            let key = draw::key([&owed.covered.shape]);
            let drawn = drawn(routine, &owed, key).join("\n");
            text += &format!("\ncover {count}: {stands}\n{drawn}\n");
        }
        count += 1;
    }
    let there = read.covers.len();
    let owed = match count == MOST_BYTES {
        true => format!("{} or more", counted(count, "cover")),
        false => counted(count, "cover"),
    };
    format!(
        "{owed} owed, {there} there, {} left.\n{text}",
        count - there
    )
}

/// Whether a verdict is 9 at a place.
fn refuses_cover(verdict: &Verdict, at: usize) -> bool {
    matches!(verdict, Verdict::Refused(Refusal { number: 9, place, .. }) if *place == at)
}
