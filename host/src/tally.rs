//! The proved tally, for the tools that a person uses.

use crate::library;
use crate::verdict::{Files, Verdict};

/// How many numbers a tally has, and bytes a report at most.
const NUMBERS: usize = 35;
const REPORT_BYTES: usize = 56;

/// A running tally of verdicts.
pub struct Tally {
    numbers: [u32; NUMBERS],
}

impl Default for Tally {
    fn default() -> Tally {
        Tally {
            numbers: [0; NUMBERS],
        }
    }
}

impl Tally {
    /// Judges a pair and takes the verdict in, unless a count would pass its limit.
    pub fn take_in(&mut self, (job, certificate): Files) -> Result<Verdict, String> {
        let mut out = [0; 4];
        match library::tally_verdict(job, certificate, &mut self.numbers, &mut out) {
            23 => Err("a count or a sum of the tally would pass 4,294,967,295".to_string()),
            number => Ok(Verdict::of_told(number, out)),
        }
    }

    /// The sheet.
    pub fn report(&self) -> String {
        let (mut text, mut out) = ([0; REPORT_BYTES], [0; 2]);
        let refused = library::tally_report(&self.numbers, &mut text, &mut out);
        assert_eq!(refused, 0, "no report is longer");
        String::from_utf8_lossy(&text[..out[0] as usize]).into_owned()
    }
}
