//! The verdict in fewer instructions: a shape is one array, an entry is tested and loaded eight bytes
//! at a time, choices are a set of bits, and a cover is tested on its bytes as they are read. Where
//! that test fails, the other baseline says why.

mod choices;
mod cover;
mod kinds;
mod members;
mod places;
mod words;

use self::cover::Covers;
use self::members::read_members;
use self::places::Places;
use super::checker::{self, is_of_version_2, verdict, Counted};
use super::job::Job;
use super::reader::{Reader, Stopped};
use crate::reference::checker::Start;
use crate::verdict::Verdict;

/// The verdict on two buffers; on those of version 2 the other baseline's.
pub fn check(job: &[u8], certificate: &[u8]) -> Verdict {
    if is_of_version_2(job) {
        return checker::check(job, certificate);
    }
    verdict(job, certificate, Start::Empty, |job, certificate| {
        let mut reader = Reader::new(certificate, 6, 7);
        count(job, &mut reader).map_err(|Stopped| reader.refusal)
    })
}

/// Checks a certificate, and counts what it has.
#[inline(always)]
fn count(job: &Job<Places>, reader: &mut Reader) -> Result<Counted, Stopped> {
    let members = read_members(reader, job)?;
    let mut covers = Covers {
        rest: reader.rest(),
        reader,
        members: &members,
        variables: job.variables.into(),
        count: 0,
        links: 0,
    };
    covers.check_all(job)?;
    Ok(Counted {
        members: members.len() as u64,
        covers: covers.count,
        links: covers.links,
    })
}

impl Covers<'_, '_> {
    fn check_all(&mut self, job: &Job<Places>) -> Result<(), Stopped> {
        for bad in &job.forbidden {
            self.check(bad.state(), bad)?;
        }
        for member in self.members {
            for transition in job.leading_to(member.state()) {
                self.check_transition(member, transition)?;
            }
        }
        self.reader.place = self.place();
        self.reader.end(10)
    }
}

#[cfg(test)]
mod tests {
    use super::check;
    use crate::pairs::delete_pairs;
    use crate::reference::checker;

    /// The digits of a word that counts up are the cases in their order.
    #[test]
    fn deletes_are_undone_as_by_the_reference() {
        for pair in delete_pairs(0x1a_5eed).take(500) {
            let expected = checker::check(&pair.job, &pair.certificate);
            assert_eq!(check(&pair.job, &pair.certificate), expected, "{pair:?}");
        }
    }
}
