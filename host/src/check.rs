//! The proved checker, for the tools that a person uses.

use crate::library;
use crate::verdict::{Files, JoinVerdict, Verdict};

/// The verdict on two buffers.
pub fn check(job: &[u8], certificate: &[u8]) -> Verdict {
    let mut out = [0; 4];
    let number = library::verdict(job, certificate, &mut out);
    Verdict::of_told(number, out)
}

/// The verdict on two pairs joined at a state of the first.
pub fn join(first: Files, second: Files, state: u32) -> JoinVerdict {
    let mut out = [0; 8];
    let number = library::join(first, second, state, &mut out);
    JoinVerdict::of_told(number, &out)
}

#[cfg(test)]
mod tests {
    use super::*;

    /// State 0, new of variable 1, state 1; forbidden there: variable 1 at #.
    const JOB: [u8; 14] = [1, 1, 2, 0, 1, 0, 6, 1, 0, 1, 1, 1, 0, 1];

    #[test]
    fn verdicts_of_the_library() {
        let accepted = check(&JOB, &[1, 1, 1, 0, 1, 0]);
        assert_eq!(
            accepted.to_string(),
            "accepted bads 1 members 1 covers 1 links 0"
        );
        let refused = check(&JOB, &[1, 1, 1, 0, 2, 0]);
        assert_eq!(refused.to_string(), "refused 9 at 5 rule 3 of 1");
        assert_eq!(check(&[], &[]).to_string(), "refused 1 at 0");
    }
}
