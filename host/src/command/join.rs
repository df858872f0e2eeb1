//! `vorruda join`: two pairs of files judged as one program.

use super::operand::PairOf;
use super::{Answer, Choice, Status, Subcommand};
use crate::check::join;
use crate::draw;
use crate::fields::of_certificate;
use crate::reference::join::unlisted;
use crate::refusal_text::refusal_text;
use crate::routine::Routine;
use crate::verdict::{JoinVerdict, Mismatch};

pub const JOIN: Subcommand = Subcommand {
    name: "join",
    operands: "JOB1 CERT1 JOB2 CERT2",
    count: 4..=4,
    options: &[Choice {
        name: "--at",
        value: Some("STATE"),
        is_required: true,
        summary: "the hand-over: the number of the first job's state at which the second starts",
    }],
    summary: "judges two jobs as one program, the second behind the first, by the proved call",
    description: "It is joined where both certificates are right, the first job has no transition from the \
hand-over, and forbids there each shape that the second owes: those of its members at its start state. \
`vorruda try FIRST --then SECOND -o DIR` writes such pairs and tells the state.

  vorruda join job1.bin cert1.bin job2.bin cert2.bin --at 10",
    run: |arguments| {
        let [job1, cert1, job2, cert2] = &arguments.operands[..] else {
            unreachable!("there are four operands")
        };
        let state = arguments.value("--at").expect("it is required");
        let state: u32 = state
            .parse()
            .map_err(|_| format!("--at {state}: expected the number of a state"))?;
        let first = PairOf::read(job1, cert1)?;
        let second = PairOf::read(job2, cert2)?;
        let verdict = join(first.files(), second.files(), state);
        let text = format!("{verdict}\n{}", words([&first, &second], state, &verdict));
        let status = match verdict {
            JoinVerdict::Joined(..) => Status::Done,
            _ => Status::Refused,
        };
        Ok(Answer::new(text, status))
    },
};

/// What a verdict says, in words.
fn words([first, second]: [&PairOf; 2], state: u32, verdict: &JoinVerdict) -> String {
    match verdict {
        JoinVerdict::Joined(..) => {
            "No run of both as one, on lists of any length, comes to what the second forbids, nor to what \
             the first forbids at another state than the hand-over.\n"
                .to_string()
        }
        JoinVerdict::PairRefused(pair, refusal) => {
            let pair = if *pair == 1 { first } else { second };
            pair.words(refusal).join("\n\n") + "\n"
        }
        JoinVerdict::Mismatched(mismatch) => {
            let text = refusal_text(*mismatch as u32).unwrap_or_default();
            let routines = (&first.job.routine, &second.job.routine);
            let owed = match (mismatch, routines) {
                (Mismatch::Owed, (Some(of_first), Some(of_second))) => {
                    owed(of_first, of_second, &second.certificate, state)
                }
                _ => String::new(),
            };
            format!("Each pair is right, but {text}.\n{owed}")
        }
    }
}

/// The shapes that the first doesn't list, drawn with the second's names.
fn owed(first: &Routine, second: &Routine, certificate: &[u8], state: u32) -> String {
    let members = of_certificate(certificate, second).members;
    let unlisted = unlisted(&first.job, &second.job, &members, state.into());
    let mut text = format!(
        "Not forbidden by the first at state {state} ({}):\n",
        draw::key(unlisted.clone())
    );
    for shape in unlisted {
        let lines = draw::shape(shape, &second.variables);
        text += &format!("\n       {}\n", lines.join("\n       "));
    }
    text
}
