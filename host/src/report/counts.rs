//! The counts on a page.

use super::milliseconds;
use crate::judge::{Ending, Judged};
use crate::reference::certificate::Certificate;
use crate::reference::job::Job;
use crate::routine::Routine;
use crate::text::thousands;
use crate::verdict::Verdict;

/// What is counted, and how many there are.
type Count = (&'static str, u64);

/// Those of a routine and of its certificate, and the time. Those of several jobs stand with each.
pub fn of_routine(routine: &Routine, judged: &Judged) -> String {
    let job = &routine.job;
    let mut counts = vec![
        ("variables", job.variables),
        ("states", job.states),
        ("transitions", job.transitions.len() as u64),
    ];
    match &judged.ending {
        Ending::Certified(certificate, verdict) => {
            counts.extend(of_pair(job, certificate, verdict));
        }
        Ending::Split(jobs) => {
            let of_whole = [of_job(job)[0], ("jobs", jobs.len() as u64)];
            counts.extend(of_whole);
        }
        _ => counts.extend(of_job(job)),
    }
    let time = milliseconds(judged.time);
    let time = format!("<div><dt>time to search and check</dt><dd>{time} ms</dd></div>\n");
    format!("<h2>Counts</h2>\n{}", listed(&counts, &time))
}

/// Those of a job and its certificate as a list.
pub fn list(job: &Job, certificate: &Certificate, verdict: &Verdict) -> String {
    listed(&of_pair(job, certificate, verdict), "")
}

fn of_job(job: &Job) -> [Count; 2] {
    [
        ("forbidden shapes", job.forbidden.len() as u64),
        ("bytes of the job", job.bytes().len() as u64),
    ]
}

fn of_pair(job: &Job, certificate: &Certificate, verdict: &Verdict) -> Vec<Count> {
    let mut counts = of_job(job).to_vec();
    counts.extend([
        ("members", certificate.members.len() as u64),
        ("covers", certificate.covers.len() as u64),
        ("bytes of the certificate", certificate.bytes().len() as u64),
    ]);
    if let Verdict::Accepted(accepted) = verdict {
        counts.push(("links followed", accepted.links));
    }
    counts
}

/// A list of counts, with what stands at its end.
fn listed(counts: &[Count], end: &str) -> String {
    let count = |&(name, count): &Count| {
        format!("<div><dt>{name}</dt><dd>{}</dd></div>\n", thousands(count))
    };
    let counts: String = counts.iter().map(count).collect();
    format!("<dl>\n{counts}{end}</dl>\n")
}
