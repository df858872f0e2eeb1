//! What a page has of a routine that is certified in several jobs: the verdict on all, and a part for
//! each job.

use super::counts;
use super::forbidden::rows;
use super::html::{escape, prose};
use super::routine_page::{said_banner, Told};
use crate::excluded;
use crate::jobs::{all_accepted, in_jobs, whole, PartJob};
use crate::refused_cover::RefusedCover;
use crate::routine::Routine;
use crate::verdict::Verdict;

/// The box at the top, and the jobs below it.
pub fn several_jobs(name: &str, routine: &Routine, jobs: &[PartJob]) -> Told {
    let verdict = match all_accepted(jobs) {
        true => {
            let text = format!(
                "{} The proved checker has accepted each certificate. {}",
                excluded::sentence(name, routine),
                whole(jobs),
            );
            said_banner("good", &format!("Certified {}", in_jobs(jobs)), &text)
        }
        false => said_banner("bad", "A certificate is refused", "See the jobs below."),
    };
    let jobs = (1..)
        .zip(jobs)
        .map(|(number, job)| one_job(number, jobs.len(), job));
    Told {
        verdict,
        below: jobs.collect(),
    }
}

/// What a job forbids, its counts, and its forbidden shapes.
fn one_job(number: usize, count: usize, job: &PartJob) -> String {
    let PartJob {
        routine,
        certificate,
        verdict,
    } = job;
    let is_accepted = matches!(verdict, Verdict::Accepted(_));
    let heading = match is_accepted {
        true => "what can't happen",
        false => "what is forbidden",
    };
    let cover = RefusedCover::of(routine, &certificate.bytes(), verdict);
    let cover = cover.map_or(String::new(), |cover| {
        let drawn = escape(&cover.drawn().join("\n"));
        format!("<p>{}</p>\n<pre>\n{drawn}\n</pre>\n", prose(&cover.how()))
    });
    format!(
        "<h2>Job {number} of {count}: {heading}</h2>\n<p>It forbids {}: {verdict}.</p>\n{cover}{}{}",
        prose(&job.forbids()),
        counts::list(&routine.job, certificate, verdict),
        rows(routine, is_accepted),
    )
}
