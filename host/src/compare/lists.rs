//! Writing a list of numbers, and reading lists back.

use super::{Tally, UNTOUCHED};
use crate::library;
use crate::random::Random;
use crate::reference::number::{self, Written, LARGEST};

const FILLED: &str = "written";
const EMPTY: &str = "written, an empty list";
const TOO_LARGE: &str = "refused, a number above 65,535";
const NO_ROOM: &str = "refused, too short";

/// Numbers above the largest, by little and by much.
const LARGE: [u64; 6] = [65_536, 65_537, 131_071, 1 << 21, 1 << 32, u64::MAX];

/// The byte that fills the room before a call.
const ROOM: u8 = 0x5a;

pub fn compare_writing() -> Tally {
    let outcomes = [FILLED, EMPTY, TOO_LARGE, NO_ROOM];
    let mut tally = Tally::new("lists written", &outcomes);
    every_number_alone(&mut tally);
    let mut random = Random::new(0x0002_5eed);
    for _ in 0..60_000 {
        random_list(&mut tally, &mut random, 30);
    }
    for _ in 0..100 {
        random_list(&mut tally, &mut random, 30_000);
    }
    tally
}

fn write(tally: &mut Tally, numbers: &[u64], room: usize, out_len: usize) {
    let mut bytes = vec![ROOM; room];
    let mut out = [UNTOUCHED; 2];
    let returned = library::write_numbers(numbers, &mut bytes, &mut out[..out_len]);

    let mut expected = vec![ROOM; room];
    let (expected_return, result, outcome) = match number::write_list(numbers, &mut expected) {
        Written::Filled(0) => (0, 0, EMPTY),
        Written::Filled(count) => (0, count, FILLED),
        Written::TooLarge(index) => (11, index, TOO_LARGE),
        Written::TooShort(needed) => (12, needed, NO_ROOM),
    };
    let mut expected_out = [UNTOUCHED; 2];
    if out_len >= 1 {
        expected_out[0] = result as u64;
    }
    tally.add(
        outcome,
        &(expected_return, expected_out, expected),
        &(returned, out, bytes),
        || format!("numbers {numbers:?} to {room} bytes, out_len {out_len}"),
    );
}

/// Each number, and some too large ones, in no room, too little, just enough and more.
fn every_number_alone(tally: &mut Tally) {
    for number in (0..=LARGEST).chain(LARGE) {
        let needed = number::byte_count(number);
        for room in [0, needed - 1, needed, needed + 2] {
            write(tally, &[number], room, 1);
        }
    }
    for room in 0..4 {
        write(tally, &[], room, 1);
    }
}

/// A list with a too large number here and there, to a room that is often just too short.
fn random_list(tally: &mut Tally, random: &mut Random, longest: usize) {
    let mut numbers = random_numbers(random, longest);
    let needed: usize = numbers.iter().copied().map(number::byte_count).sum();
    let mut large = random.below(3).saturating_sub(random.below(2));
    while large > 0 && !numbers.is_empty() {
        let index = random.below(numbers.len());
        numbers[index] = random.pick(&LARGE);
        large -= 1;
    }
    let room = match random.below(4) {
        0 => needed.saturating_sub(1 + random.below(3)),
        1 => needed,
        2 => needed + 1 + random.below(20),
        _ => random.below(needed + 1),
    };
    write(tally, &numbers, room, random.below(3));
}

fn random_numbers(random: &mut Random, longest: usize) -> Vec<u64> {
    let count = random.below(longest + 1);
    let bounds = [4, 128, 300, 16_500, 65_536];
    (0..count)
        .map(|_| {
            let bound = random.pick(&bounds);
            random.below(bound) as u64
        })
        .collect()
}

const BACK: &str = "list, written and read back";
const AGAIN: &str = "bytes, read and written again";
const NOT_READ: &str = "bytes, refused at the same place";

/// The library's writer and reader with each other, and the reader on any bytes.
pub fn compare_round_trips() -> Tally {
    let mut tally = Tally::new("round trips", &[BACK, AGAIN, NOT_READ]);
    let mut random = Random::new(0x0003_5eed);
    for _ in 0..20_000 {
        let numbers = random_numbers(&mut random, 40);
        let back = written(&numbers).map(|bytes| read_list(&bytes));
        tally.add(BACK, &Ok(Ok(numbers.clone())), &back, || {
            format!("numbers {numbers:?}")
        });
    }
    for _ in 0..60_000 {
        let length = random.below(7);
        let bytes: Vec<u8> = (0..length)
            .map(|_| random.pick(&[0, 1, 3, 4, 100, 127, 128, 129, 255]))
            .collect();
        let reference = number::read_list(&bytes);
        let outcome = if reference.is_ok() { AGAIN } else { NOT_READ };
        let library = read_list(&bytes);
        let again = library
            .as_ref()
            .map_or(Ok(bytes.clone()), |list| written(list));
        tally.add(
            outcome,
            &(reference, Ok(bytes.clone())),
            &(library, again),
            || format!("bytes {bytes:?}"),
        );
    }
    tally
}

/// The library's bytes of a list, or its refusal.
fn written(numbers: &[u64]) -> Result<Vec<u8>, u32> {
    let mut bytes = vec![ROOM; 3 * numbers.len()];
    let mut out = [UNTOUCHED];
    match library::write_numbers(numbers, &mut bytes, &mut out) {
        0 => {
            bytes.truncate(out[0] as usize);
            Ok(bytes)
        }
        refusal => Err(refusal),
    }
}

/// The library's reading of a list, number after number to the end.
fn read_list(bytes: &[u8]) -> Result<Vec<u64>, usize> {
    let mut numbers = Vec::new();
    let mut at = 0;
    while at < bytes.len() {
        let mut out = [UNTOUCHED; 2];
        if library::read_number(bytes, at, &mut out) != 0 {
            return Err(at);
        }
        numbers.push(out[0]);
        at = out[1] as usize;
    }
    Ok(numbers)
}
