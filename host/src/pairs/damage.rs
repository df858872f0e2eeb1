//! Damage to accepted pairs.

use super::Pair;
use crate::random::Random;
use crate::reference::checker::MOST_BYTES;
use crate::reference::number;

/// The pair with one damage, rarely two.
pub fn damaged(random: &mut Random, pair: &Pair) -> Pair {
    let mut pair = pair.clone();
    damage(random, &mut pair);
    if random.once_in(8) {
        damage(random, &mut pair);
    }
    pair
}

fn damage(random: &mut Random, pair: &mut Pair) {
    let target = match random.below(3) {
        0 => &mut pair.job,
        _ => &mut pair.certificate,
    };
    match random.below(32) {
        0 => wrong_length(random, target),
        1..=3 => other_start(random, pair),
        4..=6 => target.push(random.below(256) as u8),
        7..=10 => target.truncate(random.below(target.len() + 1)),
        11..=14 => change_byte(random, target),
        15..=17 => unreadable_number(random, target),
        18..=27 => change_number(random, target),
        28..=29 => remove_number(random, target),
        _ => insert_number(random, target),
    }
}

/// Nothing at all, as much as is allowed, or one byte more.
fn wrong_length(random: &mut Random, bytes: &mut Vec<u8>) {
    let length = random.pick(&[0, 0, MOST_BYTES, MOST_BYTES + 1]);
    bytes.resize(length, 0);
}

/// Another start state, so that a member there may be satisfied by the empty heap.
fn other_start(random: &mut Random, pair: &mut Pair) {
    if let [_, _, states, start, ..] = &mut pair.job[..] {
        *start = random.below(1 + usize::from(*states)) as u8;
    }
}

fn change_byte(random: &mut Random, bytes: &mut [u8]) {
    if !bytes.is_empty() {
        let at = random.below(bytes.len());
        bytes[at] = match random.below(3) {
            0 => bytes[at] ^ (1 << random.below(8)),
            1 => bytes[at].wrapping_add(1),
            _ => random.below(256) as u8,
        };
    }
}

/// Puts bytes that are no number where a number begins.
fn unreadable_number(random: &mut Random, bytes: &mut Vec<u8>) {
    let at = random.below(bytes.len() + 1);
    let rows: [&[u8]; 4] = [&[128, 0], &[129, 128, 0], &[128, 128, 4], &[255, 255, 255]];
    bytes.splice(
        at..(at + 1).min(bytes.len()),
        random.pick(&rows).iter().copied(),
    );
}

/// Works on the numbers of a file that reads.
fn with_numbers(bytes: &mut Vec<u8>, work: impl FnOnce(&mut Vec<u64>)) {
    if let Ok(mut numbers) = number::read_list(bytes) {
        work(&mut numbers);
        *bytes = numbers.into_iter().flat_map(number::bytes_of).collect();
    }
}

fn change_number(random: &mut Random, bytes: &mut Vec<u8>) {
    with_numbers(bytes, |numbers| {
        if !numbers.is_empty() {
            let at = random.below(numbers.len());
            numbers[at] = match random.below(4) {
                0 => numbers[at] + 1,
                1 => numbers[at].saturating_sub(1),
                2 => numbers[random.below(numbers.len())],
                _ => random.pick(&[0, 1, 2, 3, 4, 5, 12, 13, 64, 127, 128, 512, 65_535]),
            };
            numbers[at] = numbers[at].min(number::LARGEST);
        }
    });
}

fn remove_number(random: &mut Random, bytes: &mut Vec<u8>) {
    with_numbers(bytes, |numbers| {
        if !numbers.is_empty() {
            numbers.remove(random.below(numbers.len()));
        }
    });
}

fn insert_number(random: &mut Random, bytes: &mut Vec<u8>) {
    with_numbers(bytes, |numbers| {
        numbers.insert(random.below(numbers.len() + 1), random.below(6) as u64);
    });
}
