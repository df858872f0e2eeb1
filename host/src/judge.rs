//! From a routine to an end: what looking forward shows, what the search finds, and what the proved
//! checker says of it.

use std::time::{Duration, Instant};

use crate::check::check;
use crate::corpus::Expected;
use crate::jobs::{all_accepted, in_jobs, PartJob};
use crate::outlook::Outlook;
use crate::pairs::Pair;
use crate::reference::certificate::Certificate;
use crate::routine::Routine;
use crate::search::attempts::Tried;
use crate::search::chain::Chain;
use crate::search::run::{Bound, WrongRun};
use crate::search::{first_look, search_telling, Outcome, Stuck};
use crate::text::listed;
use crate::verdict::Verdict;

/// How a job ends.
pub enum Ending {
    /// A certificate, with the proved checker's verdict on it.
    Certified(Certificate, Verdict),
    /// The same for each of several jobs that together forbid all.
    Split(Vec<PartJob>),
    /// A run that meets what is forbidden.
    Wrong(WrongRun),
    /// No certificate exists, because of the chain; no run that was looked at is wrong, nor one along
    /// the chain.
    Beyond {
        chain: Chain,
        looked: Bound,
        along: Bound,
    },
    /// The search came to a limit, and no run within the bound is wrong.
    Undecided(Stuck, Bound),
}

/// An ending, what looking forward showed, and how long it took to look, search and check.
pub struct Judged {
    pub ending: Ending,
    pub outlook: Outlook,
    pub time: Duration,
}

pub fn judge(routine: &Routine) -> Judged {
    judge_telling(routine, &mut |_| ())
}

/// The same; each attempt to find a certificate is told as it ends.
pub fn judge_telling(routine: &Routine, tell: &mut dyn FnMut(Tried)) -> Judged {
    judge_in(routine, &routine.forbidding_lines(), tell)
}

/// The same in one job alone.
pub fn judge_unsplit(routine: &Routine) -> Judged {
    judge_unsplit_telling(routine, &mut |_| ())
}

/// The same; each attempt is told as it ends.
pub fn judge_unsplit_telling(routine: &Routine, tell: &mut dyn FnMut(Tried)) -> Judged {
    judge_in(routine, &[], tell)
}

/// The same; the job may be split between these lines.
fn judge_in(routine: &Routine, lines: &[Vec<usize>], tell: &mut dyn FnMut(Tried)) -> Judged {
    let begin = Instant::now();
    let look = first_look(&routine.job);
    let outcome = search_telling(&routine.job, lines, &look, tell);
    let ending = ending(routine, outcome);
    let wrong = match &ending {
        Ending::Wrong(wrong) => Some(wrong),
        _ => None,
    };
    Judged {
        outlook: Outlook::of(routine, &look, wrong),
        ending,
        time: begin.elapsed(),
    }
}

fn ending(routine: &Routine, outcome: Outcome) -> Ending {
    match outcome {
        Outcome::Certified(certificate) => {
            let verdict = check(&routine.job.bytes(), &certificate.bytes());
            Ending::Certified(certificate, verdict)
        }
        Outcome::Split(parts) => {
            let jobs = parts.into_iter().map(|part| PartJob::of(routine, part));
            Ending::Split(jobs.collect())
        }
        Outcome::Wrong(wrong) => Ending::Wrong(wrong),
        Outcome::Impossible {
            chain,
            looked,
            along,
        } => Ending::Beyond {
            chain,
            looked,
            along,
        },
        Outcome::Undecided(stuck, bound) => Ending::Undecided(stuck, bound),
    }
}

impl Judged {
    /// What a routine's file name has to say of it; nothing where no name does.
    pub fn expected(&self) -> Option<Expected> {
        match &self.ending {
            ending if ending.is_accepted() => Some(match self.outlook.warns() {
                true => Expected::Warned,
                false => Expected::Certified,
            }),
            Ending::Wrong(_) => Some(Expected::Wrong),
            Ending::Beyond { .. } => Some(Expected::Beyond),
            Ending::Certified(..) | Ending::Split(_) | Ending::Undecided(..) => None,
        }
    }
}

impl Ending {
    /// Whether the proved checker has accepted a certificate, or that of each job.
    pub fn is_accepted(&self) -> bool {
        match self {
            Ending::Certified(_, verdict) => matches!(verdict, Verdict::Accepted(_)),
            Ending::Split(jobs) => all_accepted(jobs),
            _ => false,
        }
    }

    /// The verdict in a table.
    pub fn words(&self) -> String {
        match self {
            Ending::Certified(_, verdict) => verdict.to_string(),
            Ending::Split(jobs) => {
                let verdicts: Vec<String> =
                    jobs.iter().map(|job| job.verdict.to_string()).collect();
                let verdicts = verdicts.join(", ");
                match all_accepted(jobs) {
                    true => format!("certified {}: {verdicts}", in_jobs(jobs)),
                    false => verdicts,
                }
            }
            Ending::Wrong(_) => "none: a run meets it".to_string(),
            Ending::Beyond { .. } => "none: beyond the rules".to_string(),
            Ending::Undecided(stuck, _) => format!("none: {}", stuck.limit),
        }
    }

    /// What a table tells of the certificate, or of that of each job.
    pub fn in_table(&self, told: impl Fn(&Certificate) -> String) -> String {
        match self {
            Ending::Certified(certificate, _) => told(certificate),
            Ending::Split(jobs) => {
                let told = jobs.iter().map(|job| told(&job.certificate));
                listed(&told.collect::<Vec<_>>())
            }
            _ => "-".to_string(),
        }
    }

    /// The job of a routine that ends so with its certificate, or each of several.
    pub fn pairs(&self, routine: &Routine) -> Vec<Pair> {
        match self {
            Ending::Certified(certificate, _) => vec![Pair {
                job: routine.job.bytes(),
                certificate: certificate.bytes(),
            }],
            Ending::Split(jobs) => jobs.iter().map(PartJob::pair).collect(),
            _ => Vec::new(),
        }
    }
}
