//! Work for the calls beside the checker.

use std::cell::RefCell;
use std::hint::black_box;

use super::Work;
use crate::compare::listings::Translate;
use crate::listings::right;
use crate::random::Random;
use crate::reference::heap::Heap;
use crate::reference::listing::MARKS;
use crate::reference::number::bytes_of;
use crate::reference::stepper::{self, NO_VALUES};
use crate::{baseline, library};

const NUMBERS: usize = 10_000;
const STEPS: usize = 5_000;

/// A walk has so many: in a long one all cells are lost, and then nothing moves.
const WALK: usize = 50;

/// The values that are lent to steps are below this number.
const VALUES: u16 = 7;

const LISTINGS: usize = 200;

/// The work with its names.
pub fn works() -> Vec<(&'static str, Work<'static>)> {
    vec![
        ("10,000 numbers read", reading()),
        ("10,000 numbers written", writing()),
        ("5,000 steps", stepping()),
        ("5,000 steps with values", stepping_with_values()),
        ("200 listings translated", translating()),
    ]
}

/// Numbers as in a certificate: most take one byte.
fn numbers() -> Vec<u64> {
    let mut random = Random::new(0xf_5eed);
    let bounds = [15, 15, 15, 15, 15, 15, 128, 512, 65_536];
    (0..NUMBERS)
        .map(|_| {
            let bound = random.pick(&bounds);
            random.below(bound) as u64
        })
        .collect()
}

fn reading() -> Work<'static> {
    let bytes: Vec<u8> = numbers().into_iter().flat_map(bytes_of).collect();
    let same = bytes.clone();
    Work {
        proved: Box::new(move || {
            let mut out = [0; 2];
            while library::read_number(&bytes, out[1] as usize, &mut out) == 0 {}
            black_box(out);
        }),
        baseline: Box::new(move || {
            let mut at = 0;
            while let Some((number, next)) = baseline::number::read(&same, at) {
                black_box(number);
                at = next;
            }
        }),
    }
}

fn writing() -> Work<'static> {
    let numbers = numbers();
    let same = numbers.clone();
    let room = || RefCell::new(vec![0; 3 * NUMBERS]);
    let (bytes, other) = (room(), room());
    Work {
        proved: Box::new(move || {
            let mut out = [0];
            library::write_numbers(&numbers, &mut bytes.borrow_mut(), &mut out);
            black_box(out);
        }),
        baseline: Box::new(move || {
            black_box(baseline::number::write_list(&same, &mut other.borrow_mut()));
        }),
    }
}

/// Walks from the empty heap.
fn stepping() -> Work<'static> {
    Work {
        proved: Box::new(walk(library::step)),
        baseline: Box::new(walk(baseline::stepper::step)),
    }
}

fn walk(step: fn(&mut [u8], u32, u32, u32) -> u32) -> impl Fn() {
    let operations = random_operations(&[1, 2, 3, 4, 5, 5, 6, 6, 6, 7]);
    let empty = stepper::bytes_of(&Heap::empty(4));
    move || {
        for walk in operations.chunks(WALK) {
            let mut heap = empty;
            for &(kind, a, b) in walk {
                black_box(step(&mut heap, kind, a, b));
            }
        }
    }
}

/// A kind and its operands.
type Numbers = (u32, u32, u32);

/// A step on the bytes and values of a heap, with the value that is lent.
type StepWithValues = fn(&mut [u8], &mut [u32], Numbers, u16) -> u32;

/// The same with values.
fn stepping_with_values() -> Work<'static> {
    Work {
        proved: Box::new(walk_with_values(library::step_values)),
        baseline: Box::new(walk_with_values(baseline::stepper::step_values)),
    }
}

fn walk_with_values(step: StepWithValues) -> impl Fn() {
    let operations = random_operations(&[1, 3, 4, 5, 5, 6, 6, 7, 8, 9, 10, 11, 12, 13, 13]);
    let empty = stepper::bytes_of(&Heap::empty(4));
    move || {
        for walk in operations.chunks(WALK) {
            let (mut heap, mut values) = (empty, NO_VALUES);
            for (&numbers, value) in walk.iter().zip((0..VALUES).cycle()) {
                black_box(step(&mut heap, &mut values, numbers, value));
            }
        }
    }
}

/// Operations of these kinds on four variables.
fn random_operations(kinds: &[u32]) -> Vec<Numbers> {
    let mut random = Random::new(0x10_5eed);
    let mut operation = || {
        let kind = random.pick(kinds);
        let mut operand = |lowest| (lowest + random.below(5 - lowest)) as u32;
        match kind {
            6 | 7 | 13 => (kind, operand(1), 0),
            _ => (
                kind,
                operand(1),
                operand(usize::from(kind == 4 || kind > 7)),
            ),
        }
    };
    (0..STEPS).map(|_| operation()).collect()
}

/// Random listings of all sizes.
fn translating() -> Work<'static> {
    Work {
        proved: Box::new(translated(library::translate)),
        baseline: Box::new(translated(baseline::listing::translate)),
    }
}

fn translated(translate: Translate) -> impl Fn() {
    let mut random = Random::new(0x14_5eed);
    let texts: Vec<Vec<u8>> = (0..LISTINGS).map(|_| right(&mut random)).collect();
    move || {
        let (mut bytes, mut marks, mut out) = ([0; 1_024], [0; MARKS], [0]);
        for text in &texts {
            black_box(translate(text, &mut bytes, &mut marks, &mut out));
        }
    }
}
