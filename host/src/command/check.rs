//! `vorruda check`: the verdict on a job and a certificate, and why.

use super::json;
use super::operand::PairOf;
use super::{tell, Answer, Choice, Status, Subcommand};
use crate::check::check;
use crate::outlook::Outlook;
use crate::refusal_text::refusal_text;
use crate::search::first_look;
use crate::verdict::{Counts, Refusal, Verdict};

pub const CHECK: Subcommand = Subcommand {
    name: "check",
    operands: "JOB CERT",
    count: 2..=2,
    options: &[Choice {
        name: "--json",
        value: None,
        is_required: false,
        summary: "one line of JSON: the verdict, its number and counts, or place, rule and name, with the \
refusal's text and the words on it",
    }],
    summary: "judges a certificate for a job, by the proved checker",
    description: "The first line is the verdict. Where it is accepted, a sentence says what can't happen. \
Where it is refused, it is said in words what is wrong: which number of the file and what it has to be, \
which shape is owed next where covers are missing, and which rule a cover breaks, with the two shapes. \
Below, it is warned of what may not be meant: marks that no run reaches, lines at which a run stops.

The names are those of the LISTING where one is given in place of the job's bytes; else they are v1, v2 \
and state 0, state 1.

  vorruda check job.bin cert.bin
  vorruda check my.listing cert.bin",
    run: |arguments| {
        let [name, certificate] = &arguments.operands[..] else {
            unreachable!("there are two operands")
        };
        let pair = PairOf::read(name, certificate)?;
        let (job, certificate) = pair.files();
        let verdict = check(job, certificate);
        let status = Status::of(&verdict);
        let text = match arguments.is_given("--json") {
            true => in_json(&pair, &verdict),
            false => in_words(name, &pair, &verdict),
        };
        Ok(Answer::new(text, status))
    },
};

fn in_words(name: &str, pair: &PairOf, verdict: &Verdict) -> String {
    let routine = pair.job.routine.as_ref();
    let mut text = String::new();
    let told = tell::verdict(&mut text, name, routine, pair.files(), verdict).and_then(|()| {
        let Some(routine) = routine else {
            return Ok(());
        };
        let outlook = Outlook::of(routine, &first_look(&routine.job), None);
        tell::warn(&mut text, routine, &outlook)
    });
    told.expect("a string takes all");
    text
}

fn in_json(pair: &PairOf, verdict: &Verdict) -> String {
    let number = |number: u64| number.to_string();
    let rows = match verdict {
        Verdict::Accepted(Counts {
            bads,
            members,
            covers,
            links,
        }) => vec![
            ("verdict", json::string("accepted")),
            ("number", number(0)),
            ("bads", number(*bads)),
            ("members", number(*members)),
            ("covers", number(*covers)),
            ("links", number(*links)),
        ],
        Verdict::Refused(refusal) => {
            let [place, rule, name] = refusal.numbers();
            let Refusal { number: of, .. } = *refusal;
            vec![
                ("verdict", json::string("refused")),
                ("number", number(of.into())),
                ("place", number(place)),
                ("rule", number(rule)),
                ("name", number(name)),
                ("text", json::string(refusal_text(of).unwrap_or_default())),
                ("words", json::strings(&pair.words(refusal))),
            ]
        }
    };
    json::object(&rows) + "\n"
}
