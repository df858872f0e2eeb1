//! What a person names: a routine as text, or the bytes of its job.

use std::path::Path;

use super::files;
use crate::corpus;
use crate::reference::job::Job;
use crate::refused_file;
use crate::routine::Routine;
use crate::verdict::{Files, Refusal};

/// A job, and its routine where the bytes can be read.
pub struct JobOf {
    pub bytes: Vec<u8>,
    pub routine: Option<Routine>,
}

impl JobOf {
    /// The job of a routine as text, with its names, or of a file of bytes.
    pub fn read(name: &str) -> Result<JobOf, String> {
        if is_text(name) {
            let routine = corpus::find(name)?.routine;
            return Ok(JobOf {
                bytes: routine.job.bytes(),
                routine: Some(routine),
            });
        }
        Ok(JobOf::of_bytes(files::read(name)?))
    }

    pub fn of_bytes(bytes: Vec<u8>) -> JobOf {
        let routine = Job::read(&bytes).ok().map(Routine::of_job);
        JobOf { bytes, routine }
    }
}

/// A job and a certificate for it.
pub struct PairOf {
    pub job: JobOf,
    pub certificate: Vec<u8>,
}

impl PairOf {
    /// The pair of two files; the first may be a routine as text.
    pub fn read(job: &str, certificate: &str) -> Result<PairOf, String> {
        Ok(PairOf {
            job: JobOf::read(job)?,
            certificate: files::read(certificate)?,
        })
    }

    pub fn files(&self) -> Files<'_> {
        (&self.job.bytes, &self.certificate)
    }

    /// Why it is refused, in paragraphs.
    pub fn words(&self, refusal: &Refusal) -> Vec<String> {
        refused_file::words(self.job.routine.as_ref(), self.files(), refusal)
    }
}

/// Whether a name is that of a routine as text.
fn is_text(name: &str) -> bool {
    let path = Path::new(name);
    let ends = |ending: &str| path.extension().is_some_and(|end| end == ending);
    let is_file = path.exists() || name == "-";
    ends("listing") || ends("routine") || !is_file && !ends("bin")
}
