//! Files carried between the versions (document 02, Wish 7): "a job alone, a certificate with its job of
//! that version lent beside it".

use super::certificate::{read_members, Certificate};
use super::checker::{check_length, MOST_BYTES};
use super::cover::read_covers;
use super::job::{Job, Located};
use super::number::byte_count;
use super::operation::KINDS;
use super::reader::Reader;
use super::version::{Direction, Version};
use crate::verdict::{Files, Refusal};

/// The file that a place is in, by the number that is told for it.
#[derive(Clone, Copy, Debug, PartialEq, Eq)]
pub enum File {
    Job = 0,
    Certificate = 1,
}

/// Why a file isn't carried.
#[derive(Clone, Copy, Debug, PartialEq, Eq)]
pub struct NotCarried {
    pub number: u32,
    /// The place, or the length needed.
    pub value: usize,
    /// The file that the place is in; the job where it is a length.
    pub file: File,
}

impl From<Refusal> for NotCarried {
    fn from(refusal: Refusal) -> NotCarried {
        NotCarried {
            number: refusal.number,
            value: refusal.place,
            file: match refusal.number {
                2 | 6 | 7 | 10 => File::Certificate,
                _ => File::Job,
            },
        }
    }
}

/// The file in the other version, or why there is none.
pub type Carried = Result<Vec<u8>, NotCarried>;

/// The job in the other version, however long it is.
pub fn job(direction: Direction, job: &[u8]) -> Carried {
    check_length(job, 1)?;
    let job = read_job(direction, job)?;
    if direction == Direction::Down {
        check_kept(File::Job, numbers_of_job(&job))?;
    }
    let version = direction.to();
    Ok(Job { version, ..job }.bytes())
}

/// The certificate in the other version, however long it is.
pub fn certificate(direction: Direction, (job, certificate): Files) -> Carried {
    check_length(job, 1)?;
    check_length(certificate, 2)?;
    let job = read_job(direction, job)?;
    let certificate = read_certificate(direction, &job, certificate)?;
    if direction == Direction::Down {
        check_kept(File::Job, numbers_of_job(&job))?;
        check_kept(File::Certificate, numbers_of_members(&certificate))?;
    }
    let version = direction.to();
    Ok(Certificate {
        version,
        ..certificate
    }
    .bytes())
}

/// The same in so much room: "12 for short room or a result above 65,536 bytes".
pub fn in_room(carried: Carried, room: usize) -> Carried {
    match carried {
        Ok(bytes) if bytes.len() > room.min(MOST_BYTES) => Err(NotCarried {
            number: 12,
            value: bytes.len(),
            file: File::Job,
        }),
        other => other,
    }
}

/// The number that is returned, with the two values that are told of a certificate; of a job the first.
pub fn answer(carried: &Carried) -> (u32, [u64; 2]) {
    match carried {
        Ok(bytes) => (0, [bytes.len() as u64, 0]),
        Err(refused) => (refused.number, [refused.value as u64, refused.file as u64]),
    }
}

fn read_job(direction: Direction, bytes: &[u8]) -> Result<Job, Refusal> {
    check_version(direction, Reader::of_job(bytes))?;
    Job::read(bytes)
}

/// "Files that can't be read" have covers too, which aren't judged.
fn read_certificate(direction: Direction, job: &Job, bytes: &[u8]) -> Result<Certificate, Refusal> {
    check_version(direction, Reader::of_certificate(bytes))?;
    let mut reader = Reader::of_certificate(bytes);
    let members = read_members(&mut reader, job)?;
    let covers = read_covers(&mut reader, job, &members)
        .map(|read| Ok(read?.cover))
        .collect::<Result<_, _>>()?;
    reader.end(10)?;
    Ok(Certificate {
        version: job.version,
        members: members.into_iter().map(|member| member.located).collect(),
        covers,
    })
}

/// The first number of a file is the version that is asked for, and no other.
fn check_version(direction: Direction, mut file: Reader) -> Result<(), Refusal> {
    let version = direction.from().number();
    file.number(version..=version).map(|_| ())
}

/// A number of a file of version 2, and whether version 1 can't have it: a kind above 7 or a number of
/// facts above 0.
type Judged = (u64, bool);

fn kept(number: u64) -> Judged {
    (number, false)
}

/// The numbers of a job of version 2, in the file's order.
fn numbers_of_job(job: &Job) -> Vec<Judged> {
    let counts = [job.transitions.len(), job.forbidden.len()].map(|count| count as u64);
    let header = [job.version.number(), job.variables, job.states, job.start];
    let mut numbers: Vec<Judged> = header.into_iter().chain([counts[0]]).map(kept).collect();
    for transition in &job.transitions {
        let [from, kind, a, b, to] = transition.numbers();
        numbers.extend([kept(from), (kind, !KINDS.contains(&kind))]);
        numbers.extend([a, b, to].map(kept));
    }
    numbers.push(kept(counts[1]));
    numbers.extend(numbers_of_shapes(&job.forbidden));
    numbers
}

/// Those of a certificate, as far as its last member.
fn numbers_of_members(certificate: &Certificate) -> Vec<Judged> {
    let count = certificate.members.len() as u64;
    let mut numbers: Vec<Judged> = [certificate.version.number(), count].map(kept).into();
    numbers.extend(numbers_of_shapes(&certificate.members));
    numbers
}

fn numbers_of_shapes(all: &[Located]) -> impl Iterator<Item = Judged> + '_ {
    all.iter().flat_map(|located| {
        let facts = &located.shape.facts;
        let ahead = located.numbers(Version::One).into_iter().map(kept);
        let count = [(facts.len() as u64, !facts.is_empty())];
        let facts = facts.iter().flat_map(|fact| fact.numbers()).map(kept);
        ahead.chain(count).chain(facts).collect::<Vec<Judged>>()
    })
}

/// 21 at the first number that version 1 can't have.
fn check_kept(file: File, numbers: Vec<Judged>) -> Result<(), NotCarried> {
    let Some(first) = numbers.iter().position(|&(_, is_beyond)| is_beyond) else {
        return Ok(());
    };
    let ahead = numbers[..first].iter();
    Err(NotCarried {
        number: 21,
        value: ahead.map(|&(number, _)| byte_count(number)).sum(),
        file,
    })
}

#[cfg(test)]
mod tests {
    use super::*;
    use Direction::{Down, Up};

    /// State 0, new of variable 1, state 1; forbidden there: variable 1 at #. And a certificate.
    const JOB: [u8; 14] = [1, 1, 2, 0, 1, 0, 6, 1, 0, 1, 1, 1, 0, 1];
    const CERTIFICATE: [u8; 6] = [1, 1, 1, 0, 1, 0];

    /// The same in version 2.
    const JOB_UP: [u8; 15] = [2, 1, 2, 0, 1, 0, 6, 1, 0, 1, 1, 1, 0, 1, 0];
    const CERTIFICATE_UP: [u8; 7] = [2, 1, 1, 0, 1, 0, 0];

    fn refused(number: u32, value: usize, file: File) -> Carried {
        Err(NotCarried {
            number,
            value,
            file,
        })
    }

    fn with(bytes: &[u8], at: usize, byte: u8) -> Vec<u8> {
        let mut bytes = bytes.to_vec();
        bytes[at] = byte;
        bytes
    }

    #[test]
    fn up_and_down() {
        assert_eq!(job(Up, &JOB), Ok(JOB_UP.to_vec()));
        assert_eq!(job(Down, &JOB_UP), Ok(JOB.to_vec()));
        let up = certificate(Up, (&JOB, &CERTIFICATE));
        assert_eq!(up, Ok(CERTIFICATE_UP.to_vec()));
        let down = certificate(Down, (&JOB_UP, &CERTIFICATE_UP));
        assert_eq!(down, Ok(CERTIFICATE.to_vec()));
    }

    #[test]
    fn lengths_come_first() {
        let long = vec![0; MOST_BYTES + 1];
        for direction in Direction::BOTH {
            for empty_or_long in [&[][..], &long] {
                let (of_job, of_certificate) =
                    (refused(1, 0, File::Job), refused(2, 0, File::Certificate));
                assert_eq!(job(direction, empty_or_long), of_job);
                assert_eq!(certificate(direction, (empty_or_long, &[])), of_job);
                assert_eq!(
                    certificate(direction, (&[9], empty_or_long)),
                    of_certificate
                );
            }
        }
    }

    #[test]
    fn other_versions_are_out_of_range() {
        let of_job = refused(4, 0, File::Job);
        let of_certificate = refused(7, 0, File::Certificate);
        for number in [0, 2, 3, 127] {
            assert_eq!(job(Up, &with(&JOB, 0, number)), of_job);
            let other = with(&CERTIFICATE, 0, number);
            assert_eq!(certificate(Up, (&JOB, &other)), of_certificate);
            assert_eq!(certificate(Up, (&JOB_UP, &other)), of_job);
        }
        assert_eq!(job(Down, &JOB), of_job);
        assert_eq!(certificate(Down, (&JOB_UP, &CERTIFICATE)), of_certificate);
        assert_eq!(job(Up, &[130, 0]), refused(3, 0, File::Job));
        let unreadable = refused(6, 0, File::Certificate);
        assert_eq!(certificate(Up, (&JOB, &[130, 0])), unreadable);
    }

    /// The member is at the start and has no cells (8), and its cover is of another shape (9).
    #[test]
    fn covers_are_read_and_not_judged() {
        let up = |certificate_bytes: &[u8]| certificate(Up, (&JOB, certificate_bytes));
        assert_eq!(up(&[1, 1, 0, 0, 2, 0]), Ok(vec![2, 1, 0, 0, 2, 0, 0]));
        assert_eq!(up(&[1, 1, 1, 0, 1]), refused(6, 5, File::Certificate));
        assert_eq!(up(&[1, 1, 1, 0, 1, 1]), refused(7, 5, File::Certificate));
        assert_eq!(
            up(&[1, 1, 1, 0, 1, 0, 0]),
            refused(10, 6, File::Certificate)
        );
        // A member that everything satisfies has a predecessor by new, so that a cover more is owed.
        assert_eq!(up(&[1, 1, 1, 0, 0, 0]), refused(6, 6, File::Certificate));
        assert_eq!(up(&[1, 1, 1, 0, 0, 0, 0]), Ok(vec![2, 1, 1, 0, 0, 0, 0, 0]));
    }

    /// Two transitions, the second of a kind on values; then facts in the first shape of two; and in the
    /// second of two members.
    #[test]
    fn what_version_1_lacks_is_refused_where_it_stands() {
        let beyond = |kind: u8, facts: &[u8]| {
            let header = [2, 1, 1, 0, 2, 0, 1, 0, 0, 0, 0, kind, 1, 0, 0, 2];
            [&header, &[0, 1, 0, 0][..], facts, &[0, 1, 0, 0, 0]].concat()
        };
        let own = [1, 1, 0, 0];
        let in_job = |place| refused(21, place, File::Job);
        assert_eq!(job(Down, &beyond(13, &own)), in_job(11));
        assert_eq!(job(Down, &beyond(7, &own)), in_job(20));
        let down = job(Down, &beyond(6, &[0])).expect("version 1 has all of it");
        assert_eq!(job(Up, &down), Ok(beyond(6, &[0])));

        // Nothing comes before a member whose variable is at #.
        let nothing = [2, 2, 0, 0, 1, 0, 0, 1, 1, 0, 0, 0, 0];
        let with_facts = [&nothing[..10], &own, &nothing[11..]].concat();
        let nothing_before = |job: &[u8]| {
            let mut job = job.to_vec();
            job[6] = 7;
            job[7] = 1;
            job
        };
        let down = |job: &[u8], bytes: &[u8]| certificate(Down, (&nothing_before(job), bytes));
        assert_eq!(down(&beyond(7, &own), &with_facts), in_job(20));
        let in_certificate = refused(21, 10, File::Certificate);
        assert_eq!(down(&beyond(7, &[0]), &with_facts), in_certificate);
        assert!(down(&beyond(7, &[0]), &nothing).is_ok());
        // All of both files is read ahead of that.
        let cut = &with_facts[..with_facts.len() - 1];
        assert_eq!(
            down(&beyond(13, &own), cut),
            refused(6, cut.len(), File::Certificate)
        );
    }

    #[test]
    fn rooms_and_the_limit() {
        let up = job(Up, &JOB);
        assert_eq!(in_room(up.clone(), 15), up);
        assert_eq!(in_room(up, 14), refused(12, 15, File::Job));
        let most = Ok(vec![0; MOST_BYTES]);
        assert_eq!(in_room(most.clone(), usize::MAX), most);
        let more = Ok(vec![0; MOST_BYTES + 1]);
        assert_eq!(
            in_room(more, usize::MAX),
            refused(12, MOST_BYTES + 1, File::Job)
        );
        let refused = refused(4, 7, File::Job);
        assert_eq!(in_room(refused.clone(), 0), refused);
        assert_eq!(answer(&refused), (4, [7, 0]));
    }
}
