//! The block list, fast: the bytes are tested once, the list is walked once by its links, and an edit
//! is a few stores. [`through_steps`] is the same by whole steps, for the benchmark alone.

pub mod through_steps;

use super::operations::Heap as _;
use super::shape::{CELL, DANGLING, NOWHERE, NULL};
use super::stepper::{well_formed, Heap, Values};
use crate::list_library::Calls;
use crate::reference::stepper::{CELLS, LINKS, MARKS, VARIABLES};

pub const CALLS: Calls = Calls {
    insert,
    remove,
    count,
};

const HEAD: usize = 1;

/// The variables that walk.
const WALKERS: [usize; 2] = [2, 3];

/// Fewer variables are refused.
const FEWEST_VARIABLES: u8 = 3;

/// Puts a cell into the list after the n-th.
#[inline(never)]
pub fn insert(bytes: &mut [u8], values: &mut [u32], n: u32) -> u32 {
    let Some((heap, _)) = well_formed(bytes, values) else {
        return 13;
    };
    let (length, behind_nth) = match walk(heap, n) {
        Ok(walked) => walked,
        Err(number) => return number,
    };
    if n > length {
        return 28;
    }
    let Some(cell) = heap.add() else {
        return 15;
    };
    heap.set_link(cell, heap[behind_nth]);
    heap[behind_nth] = cell;
    end_walk(heap);
    0
}

/// Takes the n-th cell out of the list.
#[inline(never)]
pub fn remove(bytes: &mut [u8], values: &mut [u32], n: u32) -> u32 {
    let Some((heap, values)) = well_formed(bytes, values) else {
        return 13;
    };
    let (length, at_nth) = match walk(heap, n.saturating_sub(1)) {
        Ok(walked) => walked,
        Err(number) => return number,
    };
    if n == 0 || n > length {
        return 28;
    }
    let cell = heap[at_nth];
    heap[at_nth] = heap.link(cell);
    free(heap, values, cell);
    end_walk(heap);
    0
}

/// How many cells the list has.
#[inline(never)]
pub fn count(bytes: &mut [u8], values: &mut [u32], out: &mut [u64]) -> u32 {
    let walked = match well_formed(bytes, values) {
        Some((heap, _)) => walk(heap, 0).map(|(length, _)| {
            end_walk(heap);
            length
        }),
        None => Err(13),
    };
    told(walked, out)
}

/// The number of a count, whose first entry is the length or 0.
fn told(counted: Result<u32, u32>, out: &mut [u64]) -> u32 {
    if let Some(first) = out.first_mut() {
        *first = counted.unwrap_or(0).into();
    }
    counted.err().unwrap_or(0)
}

/// The length of the list, and which byte says what comes after its n-th cell, if it has one; the
/// refusal where there is no list.
#[inline(always)]
fn walk(heap: &Heap, n: u32) -> Result<(u32, usize), u32> {
    if heap[0] < FEWEST_VARIABLES {
        return Err(13);
    }
    let (mut place, mut behind_nth, mut met) = (heap[HEAD], HEAD, 0);
    while place >= CELL {
        if met == CELLS as u32 {
            return Err(29);
        }
        met += 1;
        // The remainder is the cell itself, and spares a test of the index.
        let behind = LINKS.start + usize::from(place - CELL) % CELLS;
        if met == n {
            behind_nth = behind;
        }
        place = heap[behind];
    }
    match place {
        DANGLING => Err(29),
        _ => Ok((met, behind_nth)),
    }
}

/// Frees a cell; what stood at it then stands at *. Without branches, unlike the stepper's.
#[inline(always)]
fn free(heap: &mut Heap, values: &mut Values, place: u8) {
    let cell = usize::from(place - CELL);
    values[cell] = 0;
    heap[MARKS.start + cell] = 0;
    heap[LINKS.start + cell] = NOWHERE;
    for places in [VARIABLES, LINKS] {
        for stands in &mut heap[places] {
            *stands = if *stands == place { DANGLING } else { *stands };
        }
    }
}

fn end_walk(heap: &mut Heap) {
    for walker in WALKERS {
        heap[walker] = NULL;
    }
}

#[cfg(test)]
mod tests {
    use std::collections::BTreeSet;

    use super::*;
    use crate::baseline::stepper::step_values;
    use crate::random::Random;
    use crate::reference::block_list::{self as reference, answer};
    use crate::reference::heap;
    use crate::reference::stepper::{bytes_of, NO_VALUES};

    /// The number, the bytes and the values that a call leaves.
    type Answer = (u32, Vec<u8>, Vec<u32>);

    /// By the reference: an insert, a remove, and a count with what it tells.
    fn expected(bytes: &[u8], values: &[u32], n: u32) -> ([Answer; 3], u64) {
        let counted = reference::count(bytes, values);
        let told = counted.as_ref().map_or(0, |&(_, length)| length as u64);
        let answers = [
            reference::insert(bytes, values, n),
            reference::remove(bytes, values, n),
            counted.map(|(heap, _)| heap),
        ];
        (answers.map(|after| answer(bytes, values, &after)), told)
    }

    fn answers(calls: Calls, bytes: &[u8], values: &[u32], n: u32) -> ([Answer; 3], u64) {
        let of = |call: &mut dyn FnMut(&mut [u8], &mut [u32]) -> u32| {
            let (mut bytes, mut values) = (bytes.to_vec(), values.to_vec());
            (call(&mut bytes, &mut values), bytes, values)
        };
        let mut out = [1];
        let answers = [
            of(&mut |bytes, values| (calls.insert)(bytes, values, n)),
            of(&mut |bytes, values| (calls.remove)(bytes, values, n)),
            of(&mut |bytes, values| (calls.count)(bytes, values, &mut out)),
        ];
        (answers, out[0])
    }

    /// Walks from the empty heap, by inserts and by steps that now and then break the list; the
    /// calls are tried wherever they come.
    #[test]
    fn edits_as_the_reference() {
        let mut random = Random::new(0x20_5eed);
        let mut seen = BTreeSet::new();
        for walk in 0..200 {
            let mut bytes = bytes_of(&heap::Heap::empty(2 + walk % 4)).to_vec();
            let mut values = NO_VALUES.to_vec();
            for _ in 0..150 {
                let numbers = random.pick(&[(3, 1, 0), (4, 2, 1), (5, 1, 2), (6, 1, 0), (7, 2, 0)]);
                step_values(&mut bytes, &mut values, numbers, 0);
                step_values(&mut bytes, &mut values, (13, 1, 0), 7);
                let n = random.pick(&[0, 1, 2, 3, 5, 9, 64, u32::MAX]);
                let expected = expected(&bytes, &values, n);
                for calls in [CALLS, through_steps::CALLS] {
                    assert_eq!(
                        answers(calls, &bytes, &values, n),
                        expected,
                        "{n} {bytes:?}"
                    );
                }
                seen.extend(expected.0.iter().enumerate().map(|(call, of)| (call, of.0)));
                insert(&mut bytes, &mut values, 0);
            }
        }
        let numbers = [&[0, 13, 15, 28, 29][..], &[0, 13, 28, 29], &[0, 13, 29]];
        let all = numbers.iter().enumerate();
        let all = all.flat_map(|(call, numbers)| numbers.iter().map(move |&number| (call, number)));
        assert_eq!(seen, all.collect());
    }
}
