//! Reading one number.

use super::{Tally, UNTOUCHED};
use crate::library;
use crate::random::Random;
use crate::reference::number;

const READ: &str = "read";
const READ_THREE: &str = "read, three bytes";
const PAST_END: &str = "refused, at or past the end";
const CUT_OFF: &str = "refused, the bytes end within the number";
const FOURTH: &str = "refused, a fourth byte";
const TOO_LARGE: &str = "refused, above 65,535";
const OVERLONG: &str = "refused, longer than needed";

/// Lengths of `out` that are tried in turn: too short, exact and longer.
const OUT_LENGTHS: [usize; 5] = [2, 3, 0, 2, 1];

pub fn compare() -> Tally {
    let outcomes = [
        READ, READ_THREE, PAST_END, CUT_OFF, FOURTH, TOO_LARGE, OVERLONG,
    ];
    let mut reader = Reader {
        tally: Tally::new("one number read", &outcomes),
        turn: 0,
    };
    every_number(&mut reader);
    every_short_string(&mut reader);
    every_string_of_three(&mut reader);
    random_strings(&mut reader, 400_000);
    reader.tally
}

struct Reader {
    tally: Tally,
    turn: usize,
}

impl Reader {
    fn read(&mut self, bytes: &[u8], at: usize) {
        self.turn += 1;
        let out_len = OUT_LENGTHS[self.turn % OUT_LENGTHS.len()];
        let mut out = [UNTOUCHED; 3];
        let returned = library::read_number(bytes, at, &mut out[..out_len]);
        self.tally.add(
            outcome(bytes, at),
            &expected(bytes, at, out_len),
            &(returned, out),
            || format!("bytes {bytes:?} at {at}, out_len {out_len}"),
        );
    }
}

fn expected(bytes: &[u8], at: usize, out_len: usize) -> (u32, [u64; 3]) {
    let (returned, results) = match number::read(bytes, at) {
        Some((number, next)) => (0, [number, next as u64]),
        None => (3, [at as u64, 0]),
    };
    let mut out = [UNTOUCHED; 3];
    if out_len >= 2 {
        out[..2].copy_from_slice(&results);
    }
    (returned, out)
}

/// The sort of a case, for the spread alone.
fn outcome(bytes: &[u8], at: usize) -> &'static str {
    match number::read(bytes, at) {
        Some((_, next)) if next == at + 3 => return READ_THREE,
        Some(_) => return READ,
        None if at >= bytes.len() => return PAST_END,
        None => {}
    }
    let rest = &bytes[at..];
    match rest.iter().position(|&byte| byte < 128) {
        None if rest.len() < 3 => CUT_OFF,
        None | Some(3..) => FOURTH,
        Some(last) if rest[last] == 0 => OVERLONG,
        Some(_) => TOO_LARGE,
    }
}

/// Each number alone, and behind and before other bytes.
fn every_number(reader: &mut Reader) {
    for number in 0..=number::LARGEST {
        let bytes = number::bytes_of(number);
        reader.read(&bytes, 0);
        let among = [&[200, 1][..], &bytes, &[7]].concat();
        reader.read(&among, 2);
        reader.read(&among, 2 + bytes.len());
    }
}

/// Every string of no, one and two bytes, at every place within and at some beyond.
fn every_short_string(reader: &mut Reader) {
    let places = [0, 1, 2, 3, usize::MAX - 2, usize::MAX - 1, usize::MAX];
    for at in places {
        reader.read(&[], at);
        for first in 0..=255 {
            reader.read(&[first], at);
            for second in 0..=255 {
                reader.read(&[first, second], at);
            }
        }
    }
}

/// Every string of three bytes whose first two say that another follows.
fn every_string_of_three(reader: &mut Reader) {
    for first in 128..=255 {
        for second in 128..=255 {
            for third in 0..=255 {
                reader.read(&[first, second, third], 0);
            }
        }
    }
}

fn random_strings(reader: &mut Reader, count: usize) {
    let mut random = Random::new(0x0001_5eed);
    for _ in 0..count {
        let length = 3 + random.below(40);
        let bytes: Vec<u8> = (0..length).map(|_| random_byte(&mut random)).collect();
        reader.read(&bytes, random.below(length + 2));
    }
}

/// Bytes at which readers go wrong are frequent.
fn random_byte(random: &mut Random) -> u8 {
    match random.below(4) {
        0 => random.pick(&[0, 1, 3, 4, 127, 128, 129, 255]),
        1 => 128 + random.below(128) as u8,
        _ => random.below(256) as u8,
    }
}
