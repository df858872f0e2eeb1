//! What a person is told of a routine: its title, warnings, and how it ends and why.

use std::fmt::{Result, Write as _};

use super::Status;
use crate::beyond::{at_a_limit, Beyond};
use crate::draw;
use crate::excluded;
use crate::jobs;
use crate::judge::Ending;
use crate::outlook::{Outlook, Warning};
use crate::refused_file;
use crate::routine::Routine;
use crate::search::attempts::Tried;
use crate::search::run::WrongRun;
use crate::text::counted;
use crate::verdict::{Files, Verdict};

/// A routine's title, and what may be misspelt in it.
pub fn heading(name: &str, routine: &Routine) -> String {
    let mut text = format!("{name}: {}\n", routine.title);
    for warning in &routine.warnings {
        text += &format!("Warning: {warning}\n");
    }
    text
}

/// Warns of what a desk may not mean, with the runs that show it.
pub fn warn(text: &mut String, routine: &Routine, outlook: &Outlook) -> Result {
    for Warning { what, meaning, run } in outlook.warnings(routine) {
        writeln!(text, "Warning: {what}. {meaning}")?;
        if let Some(run) = run {
            writeln!(text, "The run ({}):\n", draw::key_of_run(run))?;
            writeln!(text, "{}", draw::run(run, routine))?;
        }
    }
    Ok(())
}

/// Tells a verdict on files, and in words what can't happen, or why they are refused. There is no
/// routine where the job can't be read.
pub fn verdict(
    text: &mut String,
    name: &str,
    routine: Option<&Routine>,
    files: Files,
    verdict: &Verdict,
) -> Result {
    writeln!(text, "{verdict}")?;
    match (verdict, routine) {
        (Verdict::Accepted(_), Some(routine)) => {
            writeln!(text, "{}", excluded::sentence(name, routine))
        }
        (Verdict::Accepted(_), None) => Ok(()),
        (Verdict::Refused(refusal), _) => {
            let words = refused_file::words(routine, files, refusal);
            writeln!(text, "{}", words.join("\n\n"))
        }
    }
}

/// Tells how a routine ends, and why.
pub fn ending(text: &mut String, name: &str, routine: &Routine, ending: &Ending) -> Result {
    match ending {
        Ending::Certified(certificate, found) => {
            let (job, certificate) = (routine.job.bytes(), certificate.bytes());
            verdict(text, name, Some(routine), (&job, &certificate), found)
        }
        Ending::Split(parts) => write!(text, "{}", jobs::told(name, routine, parts)),
        Ending::Wrong(found) => wrong(text, routine, found),
        Ending::Beyond {
            chain,
            looked,
            along,
        } => {
            let said = Beyond::of(routine, chain, looked, along);
            writeln!(text, "{}\n{}\n{}", said.found, said.looked, said.next)?;
            writeln!(
                text,
                "From a forbidden shape back to the empty heap ({}):\n",
                draw::key(&draw::shapes(chain, routine))
            )?;
            text.push_str(&draw::chain(chain, routine));
            writeln!(
                text,
                "\nThat is the start, and the empty heap satisfies the last shape."
            )
        }
        Ending::Undecided(stuck, bound) => {
            writeln!(text, "No certificate found: {}.", stuck.limit)?;
            writeln!(
                text,
                "No run was found that meets what is forbidden, among {bound}.\n{}",
                at_a_limit(routine, stuck)
            )
        }
    }
}

fn wrong(text: &mut String, routine: &Routine, wrong: &WrongRun) -> Result {
    let WrongRun { run, forbidden } = wrong;
    let steps = counted(run.transitions.len(), "step");
    writeln!(
        text,
        "Wrong: a run of {steps} meets what is forbidden ({}).\n",
        draw::key_of_run(run)
    )?;
    text.push_str(&draw::run(run, routine));
    let bad = &routine.job.forbidden[*forbidden];
    let origin = &routine.origins[*forbidden];
    let state = &routine.states[bad.state as usize];
    let statement = routine.statement(bad.state);
    let statement = statement.map_or(String::new(), |line| format!(", `{line}`"));
    writeln!(
        text,
        "\nThat is at {state}{statement}, where {origin}. What is met ({}):\n",
        draw::key([&bad.shape])
    )?;
    for line in draw::shape(&bad.shape, &routine.variables) {
        writeln!(text, "       {line}")?;
    }
    Ok(())
}

/// Tells what was tried for a certificate and where each attempt stopped.
pub fn tried(text: &mut String, tried: &[Tried]) -> Result {
    writeln!(text, "What was tried:")?;
    tried
        .iter()
        .try_for_each(|attempt| writeln!(text, "  {attempt}"))
}

impl Status {
    pub fn of(verdict: &Verdict) -> Status {
        match verdict {
            Verdict::Accepted(_) => Status::Done,
            Verdict::Refused(_) => Status::Refused,
        }
    }
}
