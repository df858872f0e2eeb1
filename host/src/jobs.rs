//! A routine that is certified in several jobs: they are the same but for what each forbids, and what
//! they forbid together no run meets.

use crate::check::check;
use crate::excluded;
use crate::pairs::Pair;
use crate::reference::certificate::Certificate;
use crate::refused_cover::RefusedCover;
use crate::routine::{Origin, Routine};
use crate::search::split::Part;
use crate::text::{in_words, listed};
use crate::verdict::Verdict;

/// One of the jobs, with its certificate and the proved checker's verdict on them.
pub struct PartJob {
    /// The routine with what this job forbids alone.
    pub routine: Routine,
    pub certificate: Certificate,
    pub verdict: Verdict,
}

impl PartJob {
    /// The job of a part of what a routine forbids.
    pub fn of(routine: &Routine, part: Part) -> PartJob {
        let routine = routine.forbidding(&part.forbidden);
        PartJob {
            verdict: check(&routine.job.bytes(), &part.certificate.bytes()),
            routine,
            certificate: part.certificate,
        }
    }

    pub fn pair(&self) -> Pair {
        Pair {
            job: self.routine.job.bytes(),
            certificate: self.certificate.bytes(),
        }
    }

    /// The lines that forbid something in this job.
    pub fn forbids(&self) -> String {
        let lines = self.routine.forbidding_lines();
        let lines = lines.iter().map(|line| {
            let Origin { line, text } = &self.routine.origins[line[0]];
            match line {
                Some(line) => format!("`{text}` (line {line})"),
                None => format!("`{text}`"),
            }
        });
        listed(&lines.collect::<Vec<_>>())
    }
}

/// The verdict on each job, with what it forbids; and where all are accepted, what then can't happen.
pub fn told(name: &str, routine: &Routine, jobs: &[PartJob]) -> String {
    let mut text = String::new();
    for (number, job) in (1..).zip(jobs) {
        let verdict = &job.verdict;
        text += &format!("job {number}, which forbids {}: {verdict}\n", job.forbids());
        if let Some(cover) = RefusedCover::of(&job.routine, &job.certificate.bytes(), verdict) {
            text += &format!("{}\n\n{}\n", cover.how(), cover.drawn().join("\n"));
        }
    }
    if all_accepted(jobs) {
        let sentence = excluded::sentence(name, routine);
        text += &format!("{}\n{sentence}\n", whole(jobs));
    }
    text
}

/// What several jobs that are all accepted are.
pub fn whole(jobs: &[PartJob]) -> String {
    format!(
        "Certified {}: each is the routine with a part of what it forbids, and together they forbid \
         all of it.",
        in_jobs(jobs)
    )
}

/// Whether each of the jobs is accepted.
pub fn all_accepted(jobs: &[PartJob]) -> bool {
    let is_accepted = |job: &PartJob| matches!(job.verdict, Verdict::Accepted(_));
    jobs.iter().all(is_accepted)
}

/// `in two jobs`
pub fn in_jobs(jobs: &[PartJob]) -> String {
    format!("in {} jobs", in_words(jobs.len()))
}
