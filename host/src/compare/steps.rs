//! The stepper, on heaps with values and on bytes alone.

use super::Tally;
use crate::library;
use crate::random::Random;
use crate::reference::heap::Heap;
use crate::reference::operation::{operation, KINDS, VALUE_KINDS};
use crate::reference::stepper::{self, Step, CELLS, HEAP_BYTES, LINKS, MARKS, SLOTS, VARIABLES};
use crate::reference::stepper::{LARGEST_VALUE, NO_VALUES};

/// Both calls: on heaps with values, and on bytes alone.
pub fn compare() -> Vec<Tally> {
    let mut stepper = Stepper {
        with_values: tally("steps", true),
        alone: tally("steps on bytes alone", false),
        random: Random::new(0x0004_5eed),
    };
    stepper.every_operation(300);
    stepper.walks(40, 5_000);
    stepper.random_heaps(40_000);
    stepper.damaged_heaps(6_000);
    vec![stepper.with_values, stepper.alone]
}

struct Stepper {
    with_values: Tally,
    alone: Tally,
    random: Random,
}

/// What is lent to a step.
#[derive(Clone, Debug, PartialEq, Eq)]
pub(super) struct Lent {
    pub heap: Vec<u8>,
    pub values: Vec<u32>,
}

impl Lent {
    pub fn of(heap: &Heap) -> Lent {
        Lent {
            heap: stepper::bytes_of(heap).to_vec(),
            values: stepper::values_of(heap).to_vec(),
        }
    }
}

/// A kind and its operands.
type Numbers = (u32, u32, u32);

pub(super) const WELL_FORMED: &str = "13 on a well formed heap";

/// A tally of the outcomes that a call can have.
fn tally(title: &'static str, with_values: bool) -> Tally {
    let last = if with_values { VALUE_KINDS } else { KINDS };
    let moved = (1..=*last.end()).map(|kind| format!("kind {kind} moved"));
    let blocked = (1..=*last.end()).filter(|&kind| kind != 6);
    let blocked = blocked.map(|kind| format!("kind {kind} blocked"));
    let refused = ["14 operation outside the table", "15 all cells used"];
    let damages = DAMAGES.iter().map(|&(name, _)| name);
    let value_damages = VALUE_DAMAGES.iter().map(|&(name, _)| name);
    let value_damages = value_damages.filter(|_| with_values);
    let named = refused.into_iter().chain(damages).chain(value_damages);
    let outcomes: Vec<String> = moved
        .chain(blocked)
        .chain(named.map(str::to_string))
        .collect();
    let outcomes: Vec<&str> = outcomes.iter().map(String::as_str).collect();
    Tally::new(title, &outcomes)
}

/// The returned number that the reference stands for, and the outcome's name.
fn told(step: &Step, kind: u32, ill_formed: &str) -> (u32, String) {
    match step {
        Step::Moved(_) => (0, format!("kind {kind} moved")),
        Step::Blocked => (100, format!("kind {kind} blocked")),
        Step::IllFormed => (13, ill_formed.to_string()),
        Step::OutsideTable => (14, "14 operation outside the table".to_string()),
        Step::Full => (15, "15 all cells used".to_string()),
    }
}

impl Stepper {
    /// Compares one step, with a random value lent, and gives the heap after it where it moved.
    fn step(&mut self, lent: &Lent, numbers: Numbers, ill_formed: &str) -> Option<Lent> {
        let (kind, a, b) = numbers;
        let value = random_value(&mut self.random) as u16;
        let mut after = lent.clone();
        let returned = library::step_values(&mut after.heap, &mut after.values, numbers, value);
        let wide = (kind.into(), a.into(), b.into());
        let reference = stepper::step_values(&lent.heap, &lent.values, wide, value);
        let (expected_return, outcome) = told(&reference, kind, ill_formed);
        let moved = match reference {
            Step::Moved(heap) => Some(Lent::of(&heap)),
            _ => None,
        };
        let expected = moved.clone().unwrap_or_else(|| lent.clone());
        self.with_values.add(
            &outcome,
            &(expected_return, expected),
            &(returned, after),
            || format!("kind {kind}, a {a}, b {b}, value {value} on {lent:?}"),
        );
        moved
    }

    /// Compares one step on the bytes alone.
    fn step_alone(&mut self, heap: &[u8], (kind, a, b): Numbers, ill_formed: &str) {
        let mut after = heap.to_vec();
        let returned = library::step(&mut after, kind, a, b);
        let reference = stepper::step(heap, kind.into(), a.into(), b.into());
        let (expected_return, outcome) = told(&reference, kind, ill_formed);
        let expected = match reference {
            Step::Moved(after) => stepper::bytes_of(&after).to_vec(),
            _ => heap.to_vec(),
        };
        self.alone.add(
            &outcome,
            &(expected_return, expected),
            &(returned, after),
            || format!("kind {kind}, a {a}, b {b} on {heap:?}"),
        );
    }

    /// Both calls, on a well formed heap.
    fn step_well_formed(&mut self, lent: &Lent, numbers: Numbers) -> Option<Lent> {
        self.step_alone(&lent.heap, numbers, WELL_FORMED);
        self.step(lent, numbers, WELL_FORMED)
    }

    /// All kinds and operands, in and just out of range, on random heaps.
    fn every_operation(&mut self, heaps: usize) {
        for _ in 0..heaps {
            let lent = random_lent(&mut self.random);
            for kind in 0..=*VALUE_KINDS.end() as u32 + 1 {
                for a in 0..=SLOTS as u32 + 1 {
                    for b in 0..=SLOTS as u32 + 1 {
                        self.step_well_formed(&lent, (kind, a, b));
                    }
                }
            }
        }
    }

    /// Walks from the empty heap: long enough that the cells run out and come back.
    fn walks(&mut self, walks: usize, length: usize) {
        for walk in 0..walks {
            let mut lent = Lent::of(&Heap::empty(1 + walk % SLOTS));
            for _ in 0..length {
                let numbers = self.random_operation(lent.heap[0].into());
                lent = self.step_well_formed(&lent, numbers).unwrap_or(lent);
            }
        }
    }

    fn random_heaps(&mut self, heaps: usize) {
        for _ in 0..heaps {
            let lent = random_lent(&mut self.random);
            let numbers = self.random_operation(lent.heap[0].into());
            self.step_well_formed(&lent, numbers);
        }
    }

    /// Every sort of damage, under operations in the table and outside.
    fn damaged_heaps(&mut self, heaps: usize) {
        for _ in 0..heaps {
            for (name, make) in DAMAGES {
                let mut heap = random_heap(&mut self.random).to_vec();
                make(&mut heap, &mut self.random);
                let numbers = self.random_operation(heap.first().map_or(1, |&v| v.into()));
                self.step_alone(&heap, numbers, name);
                let values = NO_VALUES.to_vec();
                self.step(&Lent { heap, values }, numbers, name);
            }
            for (name, make) in VALUE_DAMAGES {
                let mut lent = random_lent(&mut self.random);
                make(&mut lent, &mut self.random);
                let numbers = self.random_operation(lent.heap[0].into());
                self.step(&lent, numbers, name);
            }
        }
    }

    /// Mostly an operation of the table, now and then a kind or an operand outside.
    fn random_operation(&mut self, variables: u32) -> Numbers {
        let random = &mut self.random;
        loop {
            let kind = random.below(*VALUE_KINDS.end() as usize) as u32 + 1;
            let a = random.below(variables as usize + 1) as u32;
            let b = random.below(variables as usize + 1) as u32;
            if random.once_in(12) {
                return strange_operation(random, kind, a, b);
            }
            if operation(kind.into(), a.into(), b.into(), variables.into()).is_some() {
                return (kind, a, b);
            }
        }
    }
}

/// The operation with one of its three numbers made strange.
fn strange_operation(random: &mut Random, kind: u32, a: u32, b: u32) -> (u32, u32, u32) {
    let strange = random.pick(&[0, 8, 9, 13, 14, 255, 256, 257, 1 << 16, 1 << 31, u32::MAX]);
    match random.below(3) {
        0 => (strange, a, b),
        1 => (kind, strange, b),
        _ => (kind, a, strange),
    }
}

/// A well formed heap: often sparse, sometimes full.
fn random_heap(random: &mut Random) -> [u8; HEAP_BYTES] {
    let mut heap = [0; HEAP_BYTES];
    let count = 1 + random.below(SLOTS);
    heap[0] = count as u8;
    let density = random.pick(&[0, 1, 8, 32, 60, CELLS]);
    for cell in 0..CELLS {
        heap[MARKS.start + cell] = u8::from(random.below(CELLS) < density);
    }
    let used: Vec<u8> = (0..CELLS)
        .filter(|cell| heap[MARKS.start + cell] == 1)
        .map(|cell| 3 + cell as u8)
        .collect();
    let mut place = || match random.below(8) {
        0 => 1,
        1 => 2,
        _ if used.is_empty() => 1 + random.below(2) as u8,
        _ => random.pick(&used),
    };
    for variable in 0..count {
        heap[VARIABLES.start + variable] = place();
    }
    for &cell in &used {
        heap[LINKS.start + usize::from(cell) - 3] = place();
    }
    heap
}

/// A value: mostly small, so that two are often equal, now and then at the upper end.
pub(super) fn random_value(random: &mut Random) -> u32 {
    match random.below(8) {
        0 => LARGEST_VALUE - random.below(2) as u32,
        _ => random.below(4) as u32,
    }
}

/// A well formed heap, most of its cells with values.
pub(super) fn random_lent(random: &mut Random) -> Lent {
    let heap = random_heap(random).to_vec();
    let used = heap[MARKS].iter().map(|&mark| mark == 1);
    let values = used.map(|used| match used && !random.once_in(4) {
        true => random_value(random) + 1,
        false => 0,
    });
    let values = values.collect();
    Lent { heap, values }
}

/// A way of making a well formed heap ill formed by its values, with its name.
pub(super) type ValueDamage = (&'static str, fn(&mut Lent, &mut Random));

pub(super) const VALUE_DAMAGES: &[ValueDamage] = &[
    ("13 value above 65,535", |lent, random| {
        let cell = use_a_cell(&mut lent.heap, random);
        lent.values[cell] = random.pick(&[65_537, 65_538, 1 << 17, 1 << 31, u32::MAX]);
    }),
    ("13 unused cell with a value", |lent, random| {
        let unused = usize::from(free_a_cell(&mut lent.heap, random)) - 3;
        lent.values[unused] = 1 + random_value(random);
    }),
    ("13 too few values", |lent, random| {
        lent.values.truncate(random.below(CELLS))
    }),
    ("13 too many values", |lent, random| {
        lent.values.resize(CELLS + 1 + random.below(100), 0)
    }),
];

/// A way of making a well formed heap ill formed, with its name.
pub(super) type Damage = (&'static str, fn(&mut Vec<u8>, &mut Random));

pub(super) const DAMAGES: &[Damage] = &[
    ("13 no variables", |heap, _| {
        heap[0] = 0;
        heap[VARIABLES].fill(0);
    }),
    ("13 too many variables", |heap, random| {
        heap[0] = random.pick(&[9, 10, 128, 255]);
        heap[VARIABLES].fill(1);
    }),
    ("13 slot above V not 0", |heap, random| {
        let count = 1 + random.below(SLOTS - 1);
        heap[0] = count as u8;
        heap[VARIABLES][..count].fill(1);
        heap[VARIABLES][count..].fill(0);
        heap[VARIABLES][count + random.below(SLOTS - count)] = 1 + random.below(255) as u8;
    }),
    ("13 variable nowhere", |heap, random| {
        let variable = random.below(heap[0].into());
        heap[VARIABLES.start + variable] = 0;
    }),
    ("13 variable at an unused cell", |heap, random| {
        let variable = random.below(heap[0].into());
        heap[VARIABLES.start + variable] = free_a_cell(heap, random);
    }),
    ("13 variable beyond the cells", |heap, random| {
        let variable = random.below(heap[0].into());
        heap[VARIABLES.start + variable] = beyond_the_cells(random);
    }),
    ("13 link nowhere", |heap, random| {
        let cell = use_a_cell(heap, random);
        heap[LINKS.start + cell] = 0;
    }),
    ("13 link to an unused cell", |heap, random| {
        let unused = free_a_cell(heap, random);
        let cell = (usize::from(unused) - 3 + 1 + random.below(CELLS - 1)) % CELLS;
        heap[MARKS.start + cell] = 1;
        heap[LINKS.start + cell] = unused;
    }),
    ("13 link beyond the cells", |heap, random| {
        let cell = use_a_cell(heap, random);
        heap[LINKS.start + cell] = beyond_the_cells(random);
    }),
    ("13 unused cell with a link", |heap, random| {
        let unused = usize::from(free_a_cell(heap, random)) - 3;
        heap[LINKS.start + unused] = 1 + random.below(255) as u8;
    }),
    ("13 mark neither 0 nor 1", |heap, random| {
        let cell = random.below(CELLS);
        heap[MARKS.start + cell] = 2 + random.below(254) as u8;
    }),
    ("13 too short", |heap, random| {
        heap.truncate(random.below(HEAP_BYTES))
    }),
    ("13 too long", |heap, random| {
        heap.resize(HEAP_BYTES + 1 + random.below(200), 0)
    }),
];

fn beyond_the_cells(random: &mut Random) -> u8 {
    3 + CELLS as u8 + random.below(256 - 3 - CELLS) as u8
}

/// Makes some cell used, linked to null, and gives it.
fn use_a_cell(heap: &mut [u8], random: &mut Random) -> usize {
    let cell = random.below(CELLS);
    heap[MARKS.start + cell] = 1;
    heap[LINKS.start + cell] = 1;
    cell
}

/// Frees some cell, turning what stood at it to null, and gives its code.
fn free_a_cell(heap: &mut [u8], random: &mut Random) -> u8 {
    let cell = random.below(CELLS);
    let code = 3 + cell as u8;
    heap[MARKS.start + cell] = 0;
    heap[LINKS.start + cell] = 0;
    for range in [VARIABLES, LINKS] {
        for place in &mut heap[range] {
            if *place == code {
                *place = 1;
            }
        }
    }
    code
}
