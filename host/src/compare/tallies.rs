//! Tallies: verdicts taken in, one and many, and reports.

use std::ops::RangeInclusive;

use super::{between, lent, told, told_as, Tally};
use crate::extremes::extremes;
use crate::library::TallyCalls;
use crate::pairs::{broken_pairs, Pair, Pairs, ValuedPairs};
use crate::random::Random;
use crate::reference::checker::check;
use crate::reference::tally::{self, Refused, Short, NUMBERS};
use crate::reference::version::Version;
use crate::verdict::Verdict;

/// The largest number of a tally.
const LIMIT: u32 = u32::MAX;

const BEGUN: [u32; NUMBERS] = [0; NUMBERS];

/// Tallies of all these lengths are lent: too short, exact and longer. So are values for what is told.
const LENGTHS: RangeInclusive<usize> = 0..=NUMBERS + 5;
const OUT_LENGTHS: RangeInclusive<usize> = 0..=5;

/// The longest report.
const MOST_BYTES: usize = 56;

/// What entries beside the lent ones hold, and the room for a text ahead of a call.
const OTHER_NUMBER: u32 = 0xa5a5_a5a5;
const OTHER_BYTE: u8 = 0x5a;

/// Pairs of each generator, and how many of each verdict's number are tried at every limit.
const PAIRS: usize = 6_000;
const SAMPLES: usize = 6;

/// Numbers that refusals have.
const REFUSALS: [u32; 11] = [1, 2, 3, 4, 5, 6, 7, 8, 9, 10, 20];

const ACCEPTED: &str = "taken in, accepted";
const SHORT_TALLY: &str = "12, fewer than 35 numbers";

/// The outcomes of 23, by the number that would be too large.
const FULL: [&str; 7] = [
    "23, verdicts",
    "23, accepted ones",
    "23, members",
    "23, covers",
    "23, a refusal's count",
    "23, several of an accepted pair",
    "23, both of a refused pair",
];

/// The outcomes of reports. With no verdict there is no share, with none accepted no mean.
const REPORTS: [&str; 14] = [
    "share none, covers none",
    "share none, covers 0/1",
    "share none, covers whole",
    "share none, covers a fraction",
    "share 0/1, covers none",
    "share whole, covers 0/1",
    "share whole, covers whole",
    "share whole, covers a fraction",
    "share a fraction, covers 0/1",
    "share a fraction, covers whole",
    "share a fraction, covers a fraction",
    LONGEST,
    SHORT_ROOM,
    SHORT_TALLY,
];
const LONGEST: &str = "56 bytes";
const SHORT_ROOM: &str = "12, too little room";

const LISTS: [&str; 4] = [
    "no verdict",
    "1 verdict",
    "2 verdicts and more, from nothing",
    "2 verdicts and more, from any numbers",
];
const FULL_LISTS: [&str; 2] = ["no verdict gets 23", "some verdicts get 23"];

/// The calls with these titles against the reference: pairs with every verdict, into tallies of any
/// numbers and at every limit; lists of verdicts in several orders; reports of every sort.
pub fn compare(tallies: &[(&'static str, TallyCalls)], seed: u64) -> Vec<Tally> {
    let pairs = judged_pairs(seed);
    let samples = samples(&pairs);
    let mut tallies = Tallies {
        compared: tallies.iter().map(Compared::new).collect(),
        random: Random::new(seed),
        turn: 0,
    };
    tallies.every_length(&samples);
    tallies.every_number_at_its_limits(&samples);
    tallies.just_within_and_past(&samples);
    tallies.any_numbers(&pairs);
    tallies.in_any_order(&pairs, 150);
    tallies.lists_past_limits(&pairs, 150);
    tallies.reports_of_every_length(20);
    tallies.reports_of_chosen_numbers();
    tallies.reports_of_any_numbers(60_000);
    tallies.reports_in_every_room(400);
    let compared = tallies.compared.into_iter();
    compared
        .flat_map(|of| [of.verdicts, of.lists, of.full_lists, of.reports])
        .collect()
}

/// A pair with the reference's verdict on it.
struct Judged {
    pair: Pair,
    verdict: Verdict,
}

/// Accepted pairs and damaged ones of both versions, those with a cover that breaks rules, and the
/// ones with most members and covers.
fn judged_pairs(seed: u64) -> Vec<Judged> {
    let broken = broken_pairs(Version::One, seed).take(PAIRS / 10);
    let extremes = extremes().into_iter().map(|(_, pair)| pair);
    let version_1 = Pairs::new(seed).take(PAIRS).chain(broken).chain(extremes);
    let pairs = version_1.chain(ValuedPairs::new(seed).take(PAIRS));
    let judged = pairs.map(|pair| Judged {
        verdict: check(&pair.job, &pair.certificate),
        pair,
    });
    judged.collect()
}

/// Some pairs of each verdict's number; of the accepted ones also those with most covers.
fn samples(pairs: &[Judged]) -> Vec<&Judged> {
    let mut samples = Vec::new();
    for number in REFUSALS.into_iter().chain([0]) {
        let of_number = pairs.iter().filter(|of| of.verdict.number() == number);
        samples.extend(of_number.take(SAMPLES));
    }
    let mut accepted: Vec<&Judged> = pairs.iter().collect();
    accepted.retain(|of| of.verdict.number() == 0);
    accepted.sort_by_key(|of| of.verdict.told()[2]);
    samples.extend(accepted.iter().rev().take(SAMPLES));
    samples
}

struct Tallies {
    compared: Vec<Compared>,
    random: Random,
    /// Goes on with each case that takes the next of some lengths.
    turn: usize,
}

struct Compared {
    calls: TallyCalls,
    verdicts: Tally,
    lists: Tally,
    full_lists: Tally,
    reports: Tally,
}

impl Compared {
    fn new(&(title, calls): &(&'static str, TallyCalls)) -> Compared {
        let refused = REFUSALS.map(taken_in);
        let refused = refused.iter().map(String::as_str);
        let others = [ACCEPTED, SHORT_TALLY].into_iter().chain(FULL);
        let verdicts: Vec<&str> = refused.chain(others).collect();
        let tally =
            |what: &str, outcomes: &[&str]| Tally::new(format!("{title}: {what}"), outcomes);
        Compared {
            calls,
            verdicts: tally("verdicts", &verdicts),
            lists: tally("lists of verdicts in some orders", &LISTS),
            full_lists: tally("lists of verdicts near the limits", &FULL_LISTS),
            reports: tally("reports", &REPORTS),
        }
    }
}

/// The outcome's name of a refused pair.
fn taken_in(refusal: u32) -> String {
    format!("taken in, refused {refusal:>2}")
}

/// The outcome's name of a verdict.
fn outcome(verdict: &Verdict, after: &Result<Vec<u32>, Refused>) -> String {
    let is_accepted = verdict.number() == 0;
    let outcome = match after {
        Ok(_) if is_accepted => ACCEPTED,
        Ok(_) => return taken_in(verdict.number()),
        Err(Refused::Short) => SHORT_TALLY,
        Err(Refused::Full(places)) => match places[..] {
            [place] => FULL[place.min(4)],
            _ if is_accepted => FULL[5],
            _ => FULL[6],
        },
    };
    outcome.to_string()
}

/// The outcome's name of a report.
fn reported(report: &Result<Vec<u8>, Short>) -> String {
    let text = match report {
        Ok(text) if text.len() == MOST_BYTES => return LONGEST.to_string(),
        Ok(text) => String::from_utf8_lossy(text),
        Err(Short::Room(_)) => return SHORT_ROOM.to_string(),
        Err(Short::Tally) => return SHORT_TALLY.to_string(),
    };
    let sort = |fraction: &str| match fraction {
        "none" | "0/1" => fraction.to_string(),
        _ if fraction.ends_with("/1") => "whole".to_string(),
        _ => "a fraction".to_string(),
    };
    let words: Vec<&str> = text.split(' ').collect();
    format!("share {}, covers {}", sort(words[1]), sort(words[3]))
}

/// The length of a tally's report.
fn needed(tally: &[u32]) -> usize {
    let report = tally::report(tally, usize::MAX);
    report.expect("there is room").len()
}

impl Tallies {
    /// The next of some lengths for what is told.
    fn next_out_len(&mut self) -> usize {
        self.turn += 1;
        self.turn % (OUT_LENGTHS.end() + 1)
    }

    /// Compares a verdict taken in, with so many values told.
    fn take_in(&mut self, judged: &Judged, tally: &[u32], out_len: usize) {
        let Judged { pair, verdict } = judged;
        let after = tally::take_in(tally, verdict);
        let outcome = outcome(verdict, &after);
        let (number, values, left) = tally::answer(tally, verdict, &after);
        let expected = (
            number,
            told_as(&values, out_len),
            between(OTHER_NUMBER, &left),
        );
        for of in &mut self.compared {
            let (mut out, mut numbers) = (told(out_len), between(OTHER_NUMBER, tally));
            let number = (of.calls.verdict)(
                &pair.job,
                &pair.certificate,
                lent(&mut numbers),
                lent(&mut out),
            );
            let words = || format!("{pair:?}\n  into {tally:?}, {out_len} values told");
            let answer = (number, out, numbers);
            of.verdicts.add(&outcome, &expected, &answer, words);
        }
    }

    /// Compares a report, in so much room and with so many values told.
    fn report(&mut self, tally: &[u32], room: usize, out_len: usize) {
        let report = tally::report(tally, room);
        let outcome = reported(&report);
        let room = vec![OTHER_BYTE; room];
        let (number, values, text) = tally::report_answer(&report, &room);
        let expected = (
            number,
            told_as(&values, out_len),
            between(OTHER_BYTE, &text),
        );
        for of in &mut self.compared {
            let (mut out, mut text) = (told(out_len), between(OTHER_BYTE, &room));
            let number = (of.calls.report)(tally, lent(&mut text), lent(&mut out));
            let words = || format!("{tally:?} in {} bytes, {out_len} values told", room.len());
            let answer = (number, out, text);
            of.reports.add(&outcome, &expected, &answer, words);
        }
    }

    /// A report of these numbers among any others, in about as much room as it needs.
    fn report_of(&mut self, verdicts: u32, accepted: u32, covers: u32) {
        let mut tally = self.any_tally();
        tally[..4].copy_from_slice(&[verdicts, accepted, self.any_number(), covers]);
        let needed = needed(&tally);
        let rooms = [needed - 1, needed, needed, needed + 1, MOST_BYTES];
        let room = self.random.pick(&rooms);
        let out_len = self.next_out_len();
        self.report(&tally, room, out_len);
    }

    /// Any number, often a small one or one near the limit.
    fn any_number(&mut self) -> u32 {
        let small = self.random.below(4) as u32;
        match self.random.below(4) {
            0 => small,
            1 => LIMIT - small,
            2 => self.random.below(1 << 16) as u32,
            _ => self.random.word() as u32,
        }
    }

    fn any_numbers_lent(&mut self, length: usize) -> Vec<u32> {
        (0..length).map(|_| self.any_number()).collect()
    }

    fn any_tally(&mut self) -> Vec<u32> {
        self.any_numbers_lent(NUMBERS)
    }

    /// Tallies of every length, with every number of values told.
    fn every_length(&mut self, samples: &[&Judged]) {
        for judged in samples {
            for (length, out_len) in
                LENGTHS.flat_map(|length| OUT_LENGTHS.map(move |out| (length, out)))
            {
                let tally = self.any_numbers_lent(length);
                self.take_in(judged, &tally, out_len);
                self.take_in(judged, &vec![0; length], out_len);
            }
        }
    }

    /// Each number of the tally at 0, at 1, near the limit, and so large that members or covers just fit
    /// and just don't; the others 0, or any.
    fn every_number_at_its_limits(&mut self, samples: &[&Judged]) {
        for judged in samples {
            let [_, members, covers, _] = judged.verdict.told().map(|value| value as u32);
            let mut numbers = vec![0, 1, LIMIT - 2, LIMIT - 1, LIMIT];
            for sum in [members, covers] {
                numbers.extend([LIMIT - sum, (LIMIT - sum).saturating_add(1)]);
            }
            for place in 0..NUMBERS {
                for &number in &numbers {
                    for mut tally in [BEGUN.to_vec(), self.any_tally()] {
                        tally[place] = number;
                        let out_len = self.next_out_len();
                        self.take_in(judged, &tally, out_len);
                    }
                }
            }
        }
    }

    /// The numbers that a verdict changes as large as they can be, and every choice of them one larger;
    /// the others at the limit, at 0 or any.
    fn just_within_and_past(&mut self, samples: &[&Judged]) {
        for judged in samples {
            let added = tally::take_in(&BEGUN, &judged.verdict).expect("nothing is full");
            let changed: Vec<usize> = (0..NUMBERS).filter(|&place| added[place] > 0).collect();
            for choice in 0..1 << changed.len() {
                for mut tally in [vec![LIMIT; NUMBERS], BEGUN.to_vec(), self.any_tally()] {
                    for (number, &place) in changed.iter().enumerate() {
                        tally[place] = LIMIT - added[place] + (choice >> number & 1);
                    }
                    let out_len = self.next_out_len();
                    self.take_in(judged, &tally, out_len);
                }
            }
        }
    }

    /// All pairs, into tallies that have just begun and into any numbers.
    fn any_numbers(&mut self, pairs: &[Judged]) {
        for judged in pairs {
            let length = NUMBERS + self.random.below(4);
            let tally = self.any_numbers_lent(length);
            for tally in [&BEGUN[..], &tally] {
                let out_len = self.next_out_len();
                self.take_in(judged, tally, out_len);
            }
        }
    }

    /// So many of the pairs, some of them perhaps more than once.
    fn some<'a>(&mut self, pairs: &'a [Judged], length: usize) -> Vec<&'a Judged> {
        (0..length)
            .map(|_| &pairs[self.random.below(pairs.len())])
            .collect()
    }

    /// Lists of verdicts, each in four orders, give the reference's tally and report of the first. In
    /// one that begins with nothing the accepted and the refused make the length of the list.
    fn in_any_order(&mut self, pairs: &[Judged], lists: usize) {
        for turn in 0..lists {
            let longest = self.random.pick(&[3, 30, 400]);
            let length = self.random.below(longest);
            let begun = match turn % 2 {
                0 => BEGUN.to_vec(),
                _ => (0..NUMBERS)
                    .map(|_| self.random.below(1 << 31) as u32)
                    .collect(),
            };
            let mut list = self.some(pairs, length);
            let (expected, _) = listed(&begun, &list);
            let expected = (sums(&begun, length as u64), expected);
            let outcome = LISTS[match length {
                0 | 1 => length,
                _ => 2 + turn % 2,
            }];
            for _ in 0..4 {
                for of in &mut self.compared {
                    let listed = listed_by(of.calls, &begun, &list);
                    let answer = (sums(&listed.0, 0), listed);
                    let words = || format!("{length} verdicts from {begun:?}");
                    of.lists.add(outcome, &expected, &answer, words);
                }
                self.random.shuffle(&mut list);
            }
        }
    }

    /// Lists of verdicts that begin with numbers near the limits, in one order.
    fn lists_past_limits(&mut self, pairs: &[Judged], lists: usize) {
        for _ in 0..lists {
            let length = self.random.below(40);
            let mut begun = self.any_tally();
            let far = self.random.pick(&[3, 100, 10_000]);
            for number in &mut begun[..4] {
                *number = LIMIT - self.random.below(far) as u32;
            }
            let list = self.some(pairs, length);
            let (expected, full) = listed(&begun, &list);
            let outcome = FULL_LISTS[full.min(1)];
            for of in &mut self.compared {
                let answer = listed_by(of.calls, &begun, &list);
                let words = || format!("{length} verdicts from {begun:?}");
                of.full_lists.add(outcome, &expected, &answer, words);
            }
        }
    }

    /// Reports of tallies of every length, with every number of values told.
    fn reports_of_every_length(&mut self, tallies: usize) {
        for length in LENGTHS.flat_map(|length| std::iter::repeat_n(length, tallies)) {
            let tally = self.any_numbers_lent(length);
            let room = self.random.below(MOST_BYTES + 3);
            for out_len in OUT_LENGTHS {
                self.report(&tally, room, out_len);
            }
        }
    }

    /// All small numbers, those with one digit more than the one before, and some large ones with large
    /// divisors or none.
    fn reports_of_chosen_numbers(&mut self) {
        let small: Vec<u32> = (0..25).collect();
        let tens = (1..10).map(|digits| 10_u32.pow(digits));
        let tens = tens.flat_map(|ten| [ten - 1, ten]);
        let large = [
            1_836_311_903,
            2_971_215_073,
            1 << 31,
            LIMIT - 4,
            LIMIT - 1,
            LIMIT,
        ];
        let large: Vec<u32> = [0, 2, 3].into_iter().chain(tens).chain(large).collect();
        for numbers in [small, large] {
            for &verdicts in &numbers {
                for &accepted in &numbers {
                    for &covers in &numbers {
                        self.report_of(verdicts, accepted, covers);
                    }
                }
            }
        }
    }

    /// Any numbers, and as many that have a divisor in common.
    fn reports_of_any_numbers(&mut self, tallies: usize) {
        for _ in 0..tallies {
            let [verdicts, accepted, covers] = [(); 3].map(|()| self.any_number());
            self.report_of(verdicts, accepted, covers);
            let divisor = 2 + self.any_number() / 2;
            let divided = |number| number % (LIMIT / divisor + 1) * divisor;
            let [verdicts, accepted, covers] = [verdicts, accepted, covers].map(divided);
            self.report_of(verdicts, accepted, covers);
        }
    }

    /// Every room from none to more than enough.
    fn reports_in_every_room(&mut self, tallies: usize) {
        for _ in 0..tallies {
            let tally = self.any_tally();
            for room in 0..=needed(&tally) + 2 {
                let out_len = self.next_out_len();
                self.report(&tally, room, out_len);
            }
        }
    }
}

/// The tally after a list, and its report.
type Listed = (Vec<u32>, Vec<u8>);

/// Those of the reference, and how many verdicts got 23.
fn listed(begun: &[u32], list: &[&Judged]) -> (Listed, usize) {
    let mut tally = begun.to_vec();
    let mut full = 0;
    for judged in list {
        match tally::take_in(&tally, &judged.verdict) {
            Ok(after) => tally = after,
            Err(_) => full += 1,
        }
    }
    let text = tally::report(&tally, MOST_BYTES).expect("there is room");
    ((tally, text), full)
}

/// Those of some calls.
fn listed_by(calls: TallyCalls, begun: &[u32], list: &[&Judged]) -> Listed {
    let mut tally = begun.to_vec();
    for Judged { pair, .. } in list {
        (calls.verdict)(&pair.job, &pair.certificate, &mut tally, &mut []);
    }
    let (mut text, mut out) = (vec![OTHER_BYTE; MOST_BYTES], [0; 2]);
    (calls.report)(&tally, &mut text, &mut out);
    text.truncate(out[0] as usize);
    (tally, text)
}

/// The verdicts of a tally, and the accepted and the refused together, with so many more of both.
fn sums(tally: &[u32], more: u64) -> [u64; 2] {
    let sum = |numbers: &[u32]| numbers.iter().map(|&number| u64::from(number)).sum::<u64>();
    [
        sum(&tally[..1]) + more,
        sum(&tally[1..2]) + sum(&tally[4..]) + more,
    ]
}
