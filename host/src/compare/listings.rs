//! Listings translated to transitions.

use super::{Tally, UNTOUCHED};
use crate::listings::{edges, spellings, Listings};
use crate::random::Random;
use crate::reference::listing::{translate, Translated, MARKS};
use crate::reference::refused::Refused;

/// A call that translates: the text, and room for the bytes, the marks and the value told.
pub type Translate = fn(&[u8], &mut [u8], &mut [u8], &mut [u64]) -> u32;

const NO_LINE: &str = "translated, no line";
const SHORT: &str = "translated, up to 15 lines";
const LONG: &str = "translated, up to 63 lines";
const NO_ROOM: &str = "refused 12";
const WRONG_LINE: &str = "refused 17, a line";
const NO_END: &str = "refused 17, an end is missing";
const TOO_DEEP: &str = "refused 18";
const TOO_LARGE: &str = "refused 19, before line 64";
const TOO_LONG: &str = "refused 19, at line 64";

const OUTCOMES: [&str; 9] = [
    NO_LINE, SHORT, LONG, NO_ROOM, WRONG_LINE, NO_END, TOO_DEEP, TOO_LARGE, TOO_LONG,
];

/// The byte that fills what is lent before a call, and that stands behind it.
const ROOM: u8 = 0x5a;

/// How many bytes stand behind what is lent.
const BEHIND: usize = 8;

/// How many random texts are tried.
const RANDOM: usize = 110_000;

/// How many texts are tried with every room.
const EVERY_ROOM: usize = 150;

/// What is lent for a call.
#[derive(Clone, Copy, Debug)]
struct Lent {
    bytes: usize,
    marks: usize,
    out: usize,
}

/// Each call, with its title, against the reference: every spelling, every limit, random and
/// damaged texts; rooms from none to more than enough, and too little for marks and value.
pub fn compare(calls: &[(&'static str, Translate)], seed: u64) -> Vec<Tally> {
    let tally = |&(title, _): &(&'static str, Translate)| Tally::new(title, &OUTCOMES);
    let mut tallies: Vec<Tally> = calls.iter().map(tally).collect();
    let mut each = |text: &[u8], lent: Lent| {
        let translated = translate(text, lent.bytes);
        let expected = Answer::expected(&translated, lent);
        for (tally, &(_, call)) in tallies.iter_mut().zip(calls) {
            let answer = Answer::of_call(call, text, lent);
            let words = || format!("{:?}, {lent:?}", String::from_utf8_lossy(text));
            tally.add(outcome(text, &translated), &expected, &answer, words);
        }
    };
    let mut random = Random::new(seed);
    for text in spellings().iter().chain(&edges()) {
        let needed = needed(text);
        let exact = |bytes| Lent {
            bytes,
            marks: MARKS,
            out: 1,
        };
        each(text, exact(needed));
        each(text, exact(needed - 1));
        each(text, any_room(&mut random, needed));
    }
    let mut listings = Listings::new(seed);
    for text in listings.by_ref().take(RANDOM) {
        let lent = any_room(&mut random, needed(&text));
        each(&text, lent);
    }
    for text in listings.take(EVERY_ROOM) {
        for bytes in 0..=needed(&text) + 2 {
            let marks = random.pick(&[MARKS, 0]);
            let out = 1;
            each(&text, Lent { bytes, marks, out });
        }
    }
    tallies
}

/// Any room, most often enough; none, too little or more for the marks and the value.
fn any_room(random: &mut Random, needed: usize) -> Lent {
    let short = random.below(needed);
    let bytes = [needed - 1, needed, needed, needed, needed + 3, 1_000, short];
    Lent {
        bytes: random.pick(&bytes),
        marks: random.pick(&[0, 1, 63, 64, 64, 65, 70]),
        out: random.below(3),
    }
}

/// The room that is just enough; some, where a refusal comes before.
fn needed(text: &[u8]) -> usize {
    translate(text, usize::MAX).map_or(20, |translated| translated.bytes.len())
}

/// What a call returns, and all it may have written: what is lent and what stands behind.
#[derive(Debug, PartialEq)]
struct Answer {
    returned: u32,
    bytes: Vec<u8>,
    marks: Vec<u8>,
    out: Vec<u64>,
}

impl Answer {
    /// Nothing written yet.
    fn untouched(lent: Lent) -> Answer {
        Answer {
            returned: 0,
            bytes: vec![ROOM; lent.bytes + BEHIND],
            marks: vec![ROOM; lent.marks + BEHIND],
            out: vec![UNTOUCHED; lent.out + 1],
        }
    }

    fn of_call(call: Translate, text: &[u8], lent: Lent) -> Answer {
        let mut answer = Answer::untouched(lent);
        answer.returned = call(
            text,
            &mut answer.bytes[..lent.bytes],
            &mut answer.marks[..lent.marks],
            &mut answer.out[..lent.out],
        );
        answer
    }

    fn expected(translated: &Result<Translated, Refused>, lent: Lent) -> Answer {
        let mut answer = Answer::untouched(lent);
        let value = match translated {
            Ok(Translated { bytes, marks }) => {
                answer.bytes[..bytes.len()].copy_from_slice(bytes);
                if lent.marks >= MARKS {
                    answer.marks[..MARKS].copy_from_slice(marks);
                }
                bytes.len()
            }
            Err(refused) => {
                answer.returned = refused.number;
                refused.value
            }
        };
        if lent.out >= 1 {
            answer.out[0] = value as u64;
        }
        answer
    }
}

fn outcome(text: &[u8], translated: &Result<Translated, Refused>) -> &'static str {
    let lines = text.iter().filter(|&&byte| byte == b'\n').count();
    match translated {
        Ok(_) if lines == 0 => NO_LINE,
        Ok(_) if lines <= 15 => SHORT,
        Ok(_) => LONG,
        Err(Refused { number, value }) => match (number, value) {
            (12, _) => NO_ROOM,
            (17, line) if *line > lines && text.ends_with(b"\n") => NO_END,
            (17, _) => WRONG_LINE,
            (18, _) => TOO_DEEP,
            (19, 64) => TOO_LONG,
            (19, _) => TOO_LARGE,
            _ => panic!("no refusal of a listing: {number}"),
        },
    }
}
