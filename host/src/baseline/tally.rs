//! The tally of verdicts and its report, fast: on the host's own numbers, the text in an array of fixed
//! size.

use super::checker::check;
use crate::library::TallyCalls;
use crate::reference::tally::NUMBERS;
use crate::verdict::Verdict;

pub const CALLS: TallyCalls = TallyCalls { verdict, report };

/// The most bytes that a report has: four numbers of ten digits.
const MOST_BYTES: usize = "share / covers /".len() + 4 * MOST_DIGITS;
const MOST_DIGITS: usize = 10;

const SHORT: u32 = 12;
const FULL: u32 = 23;

/// Judges a pair and takes the verdict in, with the answer for a host in C.
#[inline(never)]
pub fn verdict(job: &[u8], certificate: &[u8], tally: &mut [u32], out: &mut [u64]) -> u32 {
    let (number, told) = match tally.first_chunk_mut() {
        None => (SHORT, [NUMBERS as u64, 0, 0, 0]),
        Some(tally) => {
            let verdict = check(job, certificate);
            match take_in(tally, &verdict) {
                Some(()) => (verdict.number(), verdict.told()),
                None => (FULL, [verdict.number().into(), 0, 0, 0]),
            }
        }
    };
    if let Some(room) = out.first_chunk_mut() {
        *room = told;
    }
    number
}

/// Nothing is changed where a number would be too large.
#[inline(always)]
fn take_in(tally: &mut [u32; NUMBERS], verdict: &Verdict) -> Option<()> {
    let verdicts = tally[0].checked_add(1)?;
    match verdict {
        Verdict::Accepted(counts) => {
            let accepted = tally[1].checked_add(1)?;
            let members = tally[2].checked_add(counts.members as u32)?;
            let covers = tally[3].checked_add(counts.covers as u32)?;
            tally[1..4].copy_from_slice(&[accepted, members, covers]);
        }
        Verdict::Refused(refusal) => {
            let count = &mut tally[3 + refusal.number as usize];
            *count = count.checked_add(1)?;
        }
    }
    tally[0] = verdicts;
    Some(())
}

/// Reports a tally, with the answer for a host in C.
#[inline(never)]
pub fn report(tally: &[u32], text: &mut [u8], out: &mut [u64]) -> u32 {
    let (number, told) = match tally.first_chunk::<NUMBERS>() {
        None => (SHORT, [NUMBERS as u64, 1]),
        Some(&[verdicts, accepted, _, covers, ..]) => {
            let mut line = Line::new();
            line.put(b"share ");
            line.put_fraction(accepted, verdicts);
            line.put(b" covers ");
            line.put_fraction(covers, accepted);
            let line = &line.bytes[..line.filled];
            let number = match text.get_mut(..line.len()) {
                Some(room) => {
                    room.copy_from_slice(line);
                    0
                }
                None => SHORT,
            };
            (number, [line.len() as u64, 0])
        }
    };
    if let Some(room) = out.first_chunk_mut() {
        *room = told;
    }
    number
}

/// The text of a report as far as it is made.
struct Line {
    bytes: [u8; MOST_BYTES],
    filled: usize,
}

impl Line {
    fn new() -> Line {
        Line {
            bytes: [0; MOST_BYTES],
            filled: 0,
        }
    }

    fn put(&mut self, text: &[u8]) {
        self.bytes[self.filled..][..text.len()].copy_from_slice(text);
        self.filled += text.len();
    }

    fn put_fraction(&mut self, number: u32, divisor: u32) {
        if divisor == 0 {
            return self.put(b"none");
        }
        let common = common(number, divisor);
        self.put_number(number / common);
        self.put(b"/");
        self.put_number(divisor / common);
    }

    /// Digits are made from the last one.
    fn put_number(&mut self, mut number: u32) {
        let mut digits = [0; MOST_DIGITS];
        let mut first = MOST_DIGITS;
        loop {
            first -= 1;
            digits[first] = b'0' + (number % 10) as u8;
            number /= 10;
            if number == 0 {
                break;
            }
        }
        self.put(&digits[first..]);
    }
}

/// The largest number that divides both.
fn common(mut one: u32, mut other: u32) -> u32 {
    while other != 0 {
        (one, other) = (other, one % other);
    }
    one
}
