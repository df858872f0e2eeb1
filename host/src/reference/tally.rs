//! The release sheet: "one running tally takes in each verdict as it falls", and its report.

use std::collections::BTreeMap;

use super::refused::in_room;
use crate::verdict::Verdict;

/// "35 numbers of 32 bits that the host lends".
pub const NUMBERS: usize = 35;

/// The numbers ahead of those of refusals, which are counted from 1.
const AHEAD: usize = 4;

/// What the numbers of a tally say. None of them has a limit here.
struct Sheet {
    verdicts: u128,
    accepted: u128,
    members: u128,
    covers: u128,
    refused: BTreeMap<usize, u128>,
}

/// Why a verdict isn't taken in.
#[derive(Clone, Debug, PartialEq, Eq)]
pub enum Refused {
    /// The tally has fewer than 35 numbers.
    Short,
    /// The numbers at these places would pass 4,294,967,295.
    Full(Vec<usize>),
}

impl Sheet {
    fn read(tally: &[u32]) -> Option<Sheet> {
        let numbers: Vec<u128> = tally.iter().map(|&number| number.into()).collect();
        let refused = (1..).zip(numbers.get(AHEAD..NUMBERS)?.iter().copied());
        Some(Sheet {
            verdicts: numbers[0],
            accepted: numbers[1],
            members: numbers[2],
            covers: numbers[3],
            refused: refused.collect(),
        })
    }

    /// "a count for each refusal number, and sums of members and covers over the accepted".
    fn take_in(&mut self, verdict: &Verdict) {
        self.verdicts += 1;
        match verdict {
            Verdict::Accepted(counts) => {
                self.accepted += 1;
                self.members += u128::from(counts.members);
                self.covers += u128::from(counts.covers);
            }
            Verdict::Refused(refusal) => {
                *self.refused.entry(refusal.number as usize).or_default() += 1;
            }
        }
    }

    /// The numbers of the tally, unless some are too large.
    fn numbers(&self) -> Result<Vec<u32>, Refused> {
        let ahead = [self.verdicts, self.accepted, self.members, self.covers];
        let numbers: Vec<u128> = ahead.iter().chain(self.refused.values()).copied().collect();
        let is_past = |&place: &usize| numbers[place] > 4_294_967_295;
        let past: Vec<usize> = (0..numbers.len()).filter(is_past).collect();
        match past.is_empty() {
            true => Ok(numbers.iter().map(|&number| number as u32).collect()),
            false => Err(Refused::Full(past)),
        }
    }

    fn report(&self) -> String {
        let share = fraction(self.accepted, self.verdicts);
        let covers = fraction(self.covers, self.accepted);
        format!("share {share} covers {covers}")
    }
}

/// "fractions in lowest terms, 0/1 for zero and `none` where the divisor would be 0".
fn fraction(number: u128, divisor: u128) -> String {
    match divisor {
        0 => "none".to_string(),
        _ => {
            let (number, divisor) = lowest(number, divisor);
            format!("{number}/{divisor}")
        }
    }
}

/// The fraction in lowest terms, as a continued one: number/divisor is a whole number and the inverse
/// of divisor/rest. With that as p/q in lowest terms it is (whole * p + q)/p, which is so too.
fn lowest(number: u128, divisor: u128) -> (u128, u128) {
    match divisor {
        0 => (1, 0),
        _ => {
            let (p, q) = lowest(divisor, number % divisor);
            (number / divisor * p + q, p)
        }
    }
}

/// The tally after a verdict; what is lent beyond its numbers stays.
pub fn take_in(tally: &[u32], verdict: &Verdict) -> Result<Vec<u32>, Refused> {
    let mut sheet = Sheet::read(tally).ok_or(Refused::Short)?;
    sheet.take_in(verdict);
    let numbers = sheet.numbers()?;
    Ok([&numbers, &tally[NUMBERS..]].concat())
}

/// What a call that judges answers: its number, the values that it tells, and the tally that it leaves.
pub fn answer(
    tally: &[u32],
    verdict: &Verdict,
    after: &Result<Vec<u32>, Refused>,
) -> (u32, [u64; 4], Vec<u32>) {
    let number = verdict.number();
    match after {
        Ok(after) => (number, verdict.told(), after.clone()),
        Err(Refused::Short) => (12, [NUMBERS as u64, 0, 0, 0], tally.to_vec()),
        Err(Refused::Full(_)) => (23, [number.into(), 0, 0, 0], tally.to_vec()),
    }
}

/// What a report has too little of.
#[derive(Clone, Copy, Debug, PartialEq, Eq)]
pub enum Short {
    /// Fewer than 35 numbers.
    Tally,
    /// Room for the text, which needs so much.
    Room(usize),
}

/// The text of a report, where so many bytes have room.
pub fn report(tally: &[u32], room: usize) -> Result<Vec<u8>, Short> {
    let sheet = Sheet::read(tally).ok_or(Short::Tally)?;
    let text = in_room(sheet.report().into_bytes(), room);
    text.map_err(|refused| Short::Room(refused.value))
}

/// What a call that reports answers: its number, the values that it tells, and what it leaves of the
/// room for the text.
pub fn report_answer(report: &Result<Vec<u8>, Short>, room: &[u8]) -> (u32, [u64; 2], Vec<u8>) {
    let left = |number, told| (number, told, room.to_vec());
    match report {
        Ok(text) => {
            let beyond = &room[text.len()..];
            (0, [text.len() as u64, 0], [text, beyond].concat())
        }
        Err(Short::Tally) => left(12, [NUMBERS as u64, 1]),
        Err(Short::Room(needed)) => left(12, [*needed as u64, 0]),
    }
}

#[cfg(test)]
mod tests {
    use super::*;
    use crate::reference::checker::check;
    use crate::verdict::{Counts, Refusal};

    const BEGUN: [u32; NUMBERS] = [0; NUMBERS];

    /// A tally whose first numbers are these.
    fn tally_of(first: &[u32]) -> Vec<u32> {
        let mut tally = BEGUN.to_vec();
        tally[..first.len()].copy_from_slice(first);
        tally
    }

    fn reported(first: &[u32]) -> String {
        let text = report(&tally_of(first), usize::MAX).expect("there is room");
        String::from_utf8(text).expect("it is text")
    }

    fn accepted(members: u64, covers: u64) -> Verdict {
        Verdict::Accepted(Counts {
            bads: 1,
            members,
            covers,
            links: 9,
        })
    }

    #[test]
    fn documented_report() {
        let job = [1, 1, 2, 0, 1, 0, 6, 1, 0, 1, 1, 1, 0, 1];
        let first = take_in(&BEGUN, &check(&job, &[1, 1, 1, 0, 1, 0])).unwrap();
        assert_eq!(first, tally_of(&[1, 1, 1, 1]));
        let second = take_in(&first, &check(&job, &[1, 1, 1, 0, 2, 0])).unwrap();
        assert_eq!(second, tally_of(&[2, 1, 1, 1, 0, 0, 0, 0, 0, 0, 0, 0, 1]));
        assert_eq!(reported(&second), "share 1/2 covers 1/1");
    }

    #[test]
    fn reports_of_every_sort() {
        for (first, text) in [
            (&[][..], "share none covers none"),
            (&[7], "share 0/1 covers none"),
            (&[0, 7], "share none covers 0/1"),
            (&[4, 6, 0, 9], "share 3/2 covers 3/2"),
            (&[5, 5, 1, 60], "share 1/1 covers 12/1"),
            (
                &[u32::MAX, u32::MAX - 1, 0, u32::MAX],
                "share 4294967294/4294967295 covers 4294967295/4294967294",
            ),
        ] {
            assert_eq!(reported(first), text);
        }
    }

    #[test]
    fn fractions_are_equal_and_lowest() {
        for (number, divisor) in (0..80).flat_map(|n| (1..80).map(move |d| (n, d))) {
            let (p, q) = lowest(number, divisor);
            assert_eq!(p * divisor, number * q, "{number}/{divisor}");
            let common = (2..=q).find(|by| p % by == 0 && q % by == 0);
            assert_eq!(common, None, "{number}/{divisor}");
        }
    }

    #[test]
    fn full_tallies_stay() {
        let most = u32::MAX;
        let full = |places: &[usize]| Err(Refused::Full(places.to_vec()));
        let verdict = accepted(3, 20);
        for (first, after) in [
            (
                [most - 1, most - 1, most - 3, most - 20],
                Ok(tally_of(&[most; 4])),
            ),
            ([most, 0, 0, 0], full(&[0])),
            ([0, most, 0, 0], full(&[1])),
            ([0, 0, most - 2, 0], full(&[2])),
            ([0, 0, most - 2, most - 19], full(&[2, 3])),
        ] {
            assert_eq!(take_in(&tally_of(&first), &verdict), after);
        }
        let refused = Verdict::Refused(Refusal::at(1, 0));
        let after = take_in(&tally_of(&[8, most, most, most, most - 1]), &refused);
        assert_eq!(after, Ok(tally_of(&[9, most, most, most, most])));
        let before = tally_of(&[9, most, most, most, most]);
        let after = take_in(&before, &refused);
        assert_eq!(after, full(&[4]));
        let told = answer(&before, &refused, &after);
        assert_eq!(told, (23, [1, 0, 0, 0], before));
    }

    #[test]
    fn short_tallies_are_tried_first() {
        let verdict = accepted(1, 1);
        assert_eq!(take_in(&BEGUN[1..], &verdict), Err(Refused::Short));
        assert_eq!(report(&BEGUN[1..], 0), Err(Short::Tally));
        assert_eq!(report(&BEGUN, 21), Err(Short::Room(22)));
        let told = report_answer(&Err(Short::Tally), &[5; 21]);
        assert_eq!(told, (12, [35, 1], vec![5; 21]));
        let told = report_answer(&Err(Short::Room(22)), &[5; 21]);
        assert_eq!(told, (12, [22, 0], vec![5; 21]));
        let longer = [&BEGUN[..], &[5, 6]].concat();
        let after = take_in(&longer, &verdict).unwrap();
        assert_eq!(after, [&tally_of(&[1; 4])[..], &[5, 6]].concat());
    }
}
