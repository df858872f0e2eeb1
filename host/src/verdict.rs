//! Verdicts on a job and a certificate, and on two such pairs joined.

use std::fmt;

/// What a cover can break, by number, in the order in which it is tried.
#[derive(Clone, Copy, Debug, PartialEq, Eq)]
pub enum Rule {
    /// The member has another state.
    State = 1,
    /// An image is used twice.
    Image = 2,
    /// A variable stands elsewhere.
    Variable = 3,
    /// A link misses.
    Link = 4,
    /// Two paths share a cell.
    Path = 5,
    /// A fact is missing.
    Fact = 6,
}

impl Rule {
    pub const ALL: [Rule; 6] = [
        Rule::State,
        Rule::Image,
        Rule::Variable,
        Rule::Link,
        Rule::Path,
        Rule::Fact,
    ];

    /// Those that can be broken where shapes have no facts.
    pub const WITHOUT_FACTS: [Rule; 5] = [
        Rule::State,
        Rule::Image,
        Rule::Variable,
        Rule::Link,
        Rule::Path,
    ];
}

/// The first rule that a cover breaks, and at what.
#[derive(Clone, Copy, Debug, PartialEq, Eq)]
pub struct Broken {
    pub rule: Rule,
    /// The lowest cell, from 0, or variable, from 1; of two cells that share a path the higher one;
    /// of a fact the first one; 0 for the state.
    pub name: u8,
}

impl Broken {
    /// What the numbers of a rule and a name tell; nothing where there is no such rule or name.
    pub fn of_numbers(rule: u64, name: u64) -> Option<Broken> {
        let rule = Rule::ALL.into_iter().find(|&known| known as u64 == rule)?;
        let name = u8::try_from(name).ok()?;
        Some(Broken { rule, name })
    }

    /// The numbers of the rule and the name.
    pub fn numbers(self) -> [u64; 2] {
        [self.rule as u64, self.name.into()]
    }
}

/// A refusal's number and its place; for 9, a cover that doesn't hold, with what it breaks.
#[derive(Clone, Copy, Debug, PartialEq, Eq)]
pub struct Refusal {
    pub number: u32,
    pub place: usize,
    pub broken: Option<Broken>,
}

impl Refusal {
    /// Any but 9.
    pub fn at(number: u32, place: usize) -> Refusal {
        Refusal {
            number,
            place,
            broken: None,
        }
    }

    /// What a number, and those of place, rule and name beside it, tell.
    pub fn of_numbers(number: u32, [place, rule, name]: [u64; 3]) -> Refusal {
        Refusal {
            number,
            place: place as usize,
            broken: Broken::of_numbers(rule, name),
        }
    }

    /// The numbers of place, rule and name, the last two 0 but for 9.
    pub fn numbers(&self) -> [u64; 3] {
        let [rule, name] = self.broken.map_or([0, 0], Broken::numbers);
        [self.place as u64, rule, name]
    }

    /// 9, for the cover at a place.
    pub fn of_cover(place: usize, broken: Broken) -> Refusal {
        Refusal {
            number: 9,
            place,
            broken: Some(broken),
        }
    }
}

/// How many forbidden shapes, members and covers an accepted pair has, and how many links are followed
/// for all covers.
#[derive(Clone, Copy, Debug, PartialEq, Eq)]
pub struct Counts {
    pub bads: u64,
    pub members: u64,
    pub covers: u64,
    pub links: u64,
}

impl Counts {
    /// The counts in the order in which they are told.
    pub fn numbers(&self) -> [u64; 4] {
        [self.bads, self.members, self.covers, self.links]
    }

    pub fn of_numbers([bads, members, covers, links]: [u64; 4]) -> Counts {
        Counts {
            bads,
            members,
            covers,
            links,
        }
    }
}

#[derive(Clone, Copy, Debug, PartialEq, Eq)]
pub enum Verdict {
    Accepted(Counts),
    Refused(Refusal),
}

/// A checker: the verdict on a job and a certificate.
pub type Check = fn(&[u8], &[u8]) -> Verdict;

impl Verdict {
    /// The verdict that a number and the four values beside it tell.
    pub fn of_told(number: u32, told: [u64; 4]) -> Verdict {
        let [place, rule, name, _] = told;
        match number {
            0 => Verdict::Accepted(Counts::of_numbers(told)),
            number => Verdict::Refused(Refusal::of_numbers(number, [place, rule, name])),
        }
    }

    /// 0 or the refusal's number.
    pub fn number(&self) -> u32 {
        match self {
            Verdict::Accepted(_) => 0,
            Verdict::Refused(refusal) => refusal.number,
        }
    }

    /// The four values that are told beside the number.
    pub fn told(&self) -> [u64; 4] {
        match self {
            Verdict::Accepted(counts) => counts.numbers(),
            Verdict::Refused(refusal) => {
                let [place, rule, name] = refusal.numbers();
                [place, rule, name, 0]
            }
        }
    }
}

/// A job and a certificate.
pub type Files<'a> = (&'a [u8], &'a [u8]);

/// The verdict on two pairs joined at a state of the first.
#[derive(Clone, Copy, Debug, PartialEq, Eq)]
pub enum JoinVerdict {
    /// With the counts of the first and of the second.
    Joined(Counts, Counts),
    /// A pair, 1 or 2, is refused.
    PairRefused(u64, Refusal),
    /// Each pair is right, but not the two together.
    Mismatched(Mismatch),
}

/// Why two pairs that are right can't be joined, by number, in the order in which it is tried.
#[derive(Clone, Copy, Debug, PartialEq, Eq)]
pub enum Mismatch {
    /// The first job has no such state.
    State = 24,
    /// The jobs have different numbers of variables.
    Variables = 25,
    /// The first job has a transition from the hand-over.
    Transition = 26,
    /// A member of the second at its start isn't forbidden by the first at the hand-over.
    Owed = 27,
}

impl Mismatch {
    pub const ALL: [Mismatch; 4] = [
        Mismatch::State,
        Mismatch::Variables,
        Mismatch::Transition,
        Mismatch::Owed,
    ];
}

impl JoinVerdict {
    /// 0 or the refusal's number.
    pub fn number(&self) -> u32 {
        match self {
            JoinVerdict::Joined(..) => 0,
            JoinVerdict::PairRefused(_, refusal) => refusal.number,
            JoinVerdict::Mismatched(mismatch) => *mismatch as u32,
        }
    }

    /// The eight values that are told beside the number.
    pub fn told(&self) -> [u64; 8] {
        let mut told = [0; 8];
        match self {
            JoinVerdict::Joined(first, second) => {
                told[..4].copy_from_slice(&first.numbers());
                told[4..].copy_from_slice(&second.numbers());
            }
            JoinVerdict::PairRefused(pair, refusal) => {
                told[0] = *pair;
                told[1..4].copy_from_slice(&refusal.numbers());
            }
            JoinVerdict::Mismatched(_) => {}
        }
        told
    }

    /// The verdict that a number and the values beside it tell.
    pub fn of_told(number: u32, told: &[u64; 8]) -> JoinVerdict {
        let [a, b, c, d, second @ ..] = *told;
        if number == 0 {
            let first = Counts::of_numbers([a, b, c, d]);
            return JoinVerdict::Joined(first, Counts::of_numbers(second));
        }
        let mut mismatches = Mismatch::ALL.into_iter();
        match mismatches.find(|&known| known as u32 == number) {
            Some(mismatch) => JoinVerdict::Mismatched(mismatch),
            None => JoinVerdict::PairRefused(a, Refusal::of_numbers(number, [b, c, d])),
        }
    }
}

impl fmt::Display for JoinVerdict {
    fn fmt(&self, f: &mut fmt::Formatter) -> fmt::Result {
        match self {
            JoinVerdict::Joined(first, second) => {
                let [first, second] = [*first, *second].map(Verdict::Accepted);
                write!(f, "joined; the first {first}, the second {second}")
            }
            JoinVerdict::PairRefused(pair, refusal) => write!(f, "pair {pair} {refusal}"),
            JoinVerdict::Mismatched(mismatch) => write!(f, "refused {}", *mismatch as u32),
        }
    }
}

impl From<Result<Counts, Refusal>> for Verdict {
    fn from(result: Result<Counts, Refusal>) -> Verdict {
        match result {
            Ok(counts) => Verdict::Accepted(counts),
            Err(refusal) => Verdict::Refused(refusal),
        }
    }
}

impl fmt::Display for Verdict {
    fn fmt(&self, f: &mut fmt::Formatter) -> fmt::Result {
        match self {
            Verdict::Accepted(Counts {
                bads,
                members,
                covers,
                links,
            }) => write!(
                f,
                "accepted bads {bads} members {members} covers {covers} links {links}"
            ),
            Verdict::Refused(refusal) => refusal.fmt(f),
        }
    }
}

impl fmt::Display for Refusal {
    fn fmt(&self, f: &mut fmt::Formatter) -> fmt::Result {
        write!(f, "refused {} at {}", self.number, self.place)?;
        match self.broken {
            Some(Broken { rule, name }) => write!(f, " rule {} of {name}", rule as u8),
            None => Ok(()),
        }
    }
}

#[cfg(test)]
mod tests {
    use super::*;

    #[test]
    fn verdicts_print_as_one_line() {
        let counts = Counts {
            bads: 1,
            members: 1,
            covers: 1,
            links: 0,
        };
        let accepted = Verdict::Accepted(counts);
        assert_eq!(
            accepted.to_string(),
            "accepted bads 1 members 1 covers 1 links 0"
        );
        let refused = Verdict::Refused(Refusal::at(8, 5));
        assert_eq!(refused.to_string(), "refused 8 at 5");
        let elsewhere = Broken {
            rule: Rule::Variable,
            name: 1,
        };
        let refused = Verdict::Refused(Refusal::of_cover(5, elsewhere));
        assert_eq!(refused.to_string(), "refused 9 at 5 rule 3 of 1");
    }

    #[test]
    fn joins_are_told_and_read_back() {
        let counts = |first: u64| Counts::of_numbers([first, first + 1, first + 2, first + 3]);
        let joined = JoinVerdict::Joined(counts(1), counts(5));
        let elsewhere = Broken {
            rule: Rule::Variable,
            name: 1,
        };
        let refused = JoinVerdict::PairRefused(2, Refusal::of_cover(5, elsewhere));
        let mismatched = Mismatch::ALL.map(JoinVerdict::Mismatched);
        for (verdict, number, told) in [
            (joined, 0, [1, 2, 3, 4, 5, 6, 7, 8]),
            (refused, 9, [2, 5, 3, 1, 0, 0, 0, 0]),
            (mismatched[0], 24, [0; 8]),
            (mismatched[1], 25, [0; 8]),
            (mismatched[2], 26, [0; 8]),
            (mismatched[3], 27, [0; 8]),
        ] {
            assert_eq!((verdict.number(), verdict.told()), (number, told));
            assert_eq!(JoinVerdict::of_told(number, &told), verdict);
        }
        assert_eq!(refused.to_string(), "pair 2 refused 9 at 5 rule 3 of 1");
        assert_eq!(mismatched[3].to_string(), "refused 27");
    }

    #[test]
    fn rules_are_numbered_from_1_to_6() {
        for rule in 1..=6 {
            let broken = Broken::of_numbers(rule, 13).expect("there is such a rule");
            assert_eq!(broken.numbers(), [rule, 13]);
        }
        for (rule, name) in [(0, 0), (7, 0), (259, 0), (3, 256)] {
            assert_eq!(Broken::of_numbers(rule, name), None);
        }
    }
}
