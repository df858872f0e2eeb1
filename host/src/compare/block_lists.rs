//! The block list: inserts, removes and counts. (`lists` has the lists of numbers.)

use std::iter;

use super::steps::{random_lent, random_value, Lent, DAMAGES, VALUE_DAMAGES, WELL_FORMED};
use super::{Tally, UNTOUCHED};
use crate::list_library::{Calls, Edit};
use crate::random::Random;
use crate::reference::block_list::{self, chained, Refused};
use crate::reference::heap::{Heap, Place};
use crate::reference::stepper::{self, CELLS, NO_VALUES, SLOTS};

/// Numbers past every list, that are small in their low bits or as a signed number.
const FAR: [u32; 8] = [
    255,
    256,
    257,
    1 << 16,
    (1 << 16) + 1,
    1 << 31,
    u32::MAX - 1,
    u32::MAX,
];

/// Fewer variables are refused.
const FEWEST_VARIABLES: usize = 3;

const PAST_LIST: &str = "28 past the list";
const FAR_PAST_LIST: &str = "28 far past the list";
const NOUGHTH: &str = "28 the 0th";
const FULL: &str = "15 all cells used";

/// The outcomes of every call beside those of ill formed heaps.
const REFUSED: [&str; 5] = [
    "13 fewer than three variables",
    "29 the head at *",
    "29 a link at *",
    "29 a ring",
    "29 a ring behind other cells",
];

const INSERTED: [&str; 7] = [
    "the first of a list",
    "at the front",
    "in the middle",
    "at the end",
    PAST_LIST,
    FAR_PAST_LIST,
    FULL,
];

const REMOVED: [&str; 11] = [
    "the only one",
    "the only one, at which others stand",
    "the first",
    "the first, at which others stand",
    "a middle one",
    "a middle one, at which others stand",
    "the last",
    "the last, at which others stand",
    PAST_LIST,
    FAR_PAST_LIST,
    NOUGHTH,
];

const COUNTED: [&str; 4] = ["no cell", "one cell", "2 to 63 cells", "64 cells"];

/// The calls with these titles against the reference: lists of every length, heads and links at *,
/// rings of every size, any heaps, ill formed ones, and many edits one after the other.
pub fn compare(lists: &[(&'static str, Calls)]) -> Vec<Tally> {
    let mut block_lists = BlockLists {
        compared: lists.iter().map(Compared::new).collect(),
        random: Random::new(0x0020_5eed),
    };
    block_lists.every_place(20);
    block_lists.no_ends(3);
    block_lists.few_variables(500);
    block_lists.random_heaps(12_000);
    block_lists.damaged_heaps(600);
    block_lists.walks(150);
    let compared = block_lists.compared.into_iter();
    compared
        .flat_map(|of| [of.insert, of.remove, of.count])
        .collect()
}

struct BlockLists {
    compared: Vec<Compared>,
    random: Random,
}

struct Compared {
    calls: Calls,
    insert: Tally,
    remove: Tally,
    count: Tally,
}

impl Compared {
    fn new(&(title, calls): &(&'static str, Calls)) -> Compared {
        let tally = |call: &str, own: &[&str]| {
            let damages = DAMAGES.iter().map(|&(name, _)| name);
            let value_damages = VALUE_DAMAGES.iter().map(|&(name, _)| name);
            let outcomes = damages.chain(value_damages).chain(REFUSED);
            let outcomes: Vec<&str> = outcomes.chain(own.iter().copied()).collect();
            Tally::new(format!("{title}: {call}"), &outcomes)
        };
        Compared {
            calls,
            insert: tally("inserts", &INSERTED),
            remove: tally("removes", &REMOVED),
            count: tally("counts", &COUNTED),
        }
    }
}

/// The outcome's name of a refusal.
fn refused(refused: Refused, n: u32, ill_formed: &str) -> &str {
    match refused {
        Refused::IllFormed => ill_formed,
        Refused::FewVariables => REFUSED[0],
        Refused::HeadDangles => REFUSED[1],
        Refused::LinkDangles => REFUSED[2],
        Refused::Ring { ahead: 0 } => REFUSED[3],
        Refused::Ring { .. } => REFUSED[4],
        Refused::PastList if n == 0 => NOUGHTH,
        Refused::PastList if n < FAR[0] => PAST_LIST,
        Refused::PastList => FAR_PAST_LIST,
        Refused::Full => FULL,
    }
}

fn inserted(n: usize, length: usize) -> &'static str {
    match n {
        0 if length == 0 => INSERTED[0],
        0 => INSERTED[1],
        _ if n < length => INSERTED[2],
        _ => INSERTED[3],
    }
}

fn removed(n: usize, length: usize, others: bool) -> &'static str {
    let which = match n {
        1 if length == 1 => 0,
        1 => 2,
        _ if n < length => 4,
        _ => 6,
    };
    REMOVED[which + usize::from(others)]
}

fn counted(length: usize) -> &'static str {
    match length {
        0 => COUNTED[0],
        1 => COUNTED[1],
        CELLS => COUNTED[3],
        _ => COUNTED[2],
    }
}

impl Lent {
    /// The number that the reference stands for, and what it leaves of this.
    fn after(&self, after: &Result<Heap, Refused>) -> (u32, Lent) {
        let (number, heap, values) = block_list::answer(&self.heap, &self.values, after);
        (number, Lent { heap, values })
    }

    /// The length of the list, 0 where there is none.
    fn length(&self) -> usize {
        let counted = block_list::count(&self.heap, &self.values);
        counted.map_or(0, |(_, length)| length)
    }
}

impl BlockLists {
    /// Compares an insert, and gives what it leaves.
    fn insert(&mut self, lent: &Lent, n: u32, ill_formed: &str) -> Lent {
        let reference = block_list::insert(&lent.heap, &lent.values, n);
        let outcome = match &reference {
            Ok(_) => inserted(n as usize, lent.length()),
            Err(of) => refused(*of, n, ill_formed),
        };
        let expected = lent.after(&reference);
        self.edit(lent, n, expected, outcome, |of| {
            (of.calls.insert, &mut of.insert)
        })
    }

    /// Compares a remove, and gives what it leaves.
    fn remove(&mut self, lent: &Lent, n: u32, ill_formed: &str) -> Lent {
        let reference = block_list::remove(&lent.heap, &lent.values, n);
        let outcome = match &reference {
            Ok(after) => removed(n as usize, lent.length(), dangles_more(lent, after)),
            Err(of) => refused(*of, n, ill_formed),
        };
        let expected = lent.after(&reference);
        self.edit(lent, n, expected, outcome, |of| {
            (of.calls.remove, &mut of.remove)
        })
    }

    /// Compares an edit that each does by one of its calls, counted in a tally of its own.
    fn edit(
        &mut self,
        lent: &Lent,
        n: u32,
        expected: (u32, Lent),
        outcome: &str,
        of_edit: fn(&mut Compared) -> (Edit, &mut Tally),
    ) -> Lent {
        for of in &mut self.compared {
            let (edit, tally) = of_edit(of);
            let mut after = lent.clone();
            let number = edit(&mut after.heap, &mut after.values, n);
            let words = || format!("{n} in {lent:?}");
            tally.add(outcome, &expected, &(number, after), words);
        }
        expected.1
    }

    /// Compares a count, with so many entries for its answer.
    fn count(&mut self, lent: &Lent, out_len: usize, ill_formed: &str) {
        let reference = block_list::count(&lent.heap, &lent.values);
        let (outcome, told) = match &reference {
            Ok((_, length)) => (counted(*length), *length as u64),
            Err(of) => (refused(*of, 0, ill_formed), 0),
        };
        let mut expected_out = [UNTOUCHED; 3];
        expected_out[..out_len.min(1)].fill(told);
        let expected = (lent.after(&reference.map(|(heap, _)| heap)), expected_out);
        for of in &mut self.compared {
            let (mut after, mut out) = (lent.clone(), [UNTOUCHED; 3]);
            let lent_out = &mut out[..out_len];
            let number = (of.calls.count)(&mut after.heap, &mut after.values, lent_out);
            let words = || format!("{out_len} entries, {lent:?}");
            let answer = ((number, after), out);
            of.count.add(outcome, &expected, &answer, words);
        }
    }

    /// All calls, the edits at n.
    fn all(&mut self, lent: &Lent, n: u32, ill_formed: &str) {
        self.insert(lent, n, ill_formed);
        self.remove(lent, n, ill_formed);
        let out_len = self.random.below(3);
        self.count(lent, out_len, ill_formed);
    }

    /// Lists of every length, edited at every place and past their ends.
    fn every_place(&mut self, heaps: usize) {
        for length in (0..=CELLS).flat_map(|length| iter::repeat_n(length, heaps)) {
            let (heap, _) = self.listed(length);
            let lent = Lent::of(&heap);
            for n in (0..=length as u32 + 2).chain(FAR) {
                self.insert(&lent, n, WELL_FORMED);
                self.remove(&lent, n, WELL_FORMED);
            }
            (0..3).for_each(|out_len| self.count(&lent, out_len, WELL_FORMED));
        }
    }

    /// Cells from the head to every number, the last linked to * or to any of them; and heads at *.
    fn no_ends(&mut self, heaps: usize) {
        for length in (0..=CELLS).flat_map(|length| iter::repeat_n(length, heaps)) {
            let (heap, cells) = self.listed(length);
            let back = cells.iter().map(|&cell| Place::Cell(cell));
            for end in back.chain([Place::Dangling]) {
                let mut heap = heap.clone();
                match cells.last() {
                    Some(&last) => drop(heap.links.insert(last, end)),
                    None => heap.variables[0] = end,
                }
                let n = self.any_n(length);
                self.all(&Lent::of(&heap), n, WELL_FORMED);
            }
        }
    }

    /// Lists on heaps of one and two variables.
    fn few_variables(&mut self, heaps: usize) {
        for variables in (1..FEWEST_VARIABLES).flat_map(|count| iter::repeat_n(count, heaps)) {
            let (mut heap, cells) = self.any_listed();
            heap.variables.truncate(variables);
            let n = self.any_n(cells.len());
            self.all(&Lent::of(&heap), n, WELL_FORMED);
        }
    }

    /// Any heaps.
    fn random_heaps(&mut self, heaps: usize) {
        for _ in 0..heaps {
            let lent = random_lent(&mut self.random);
            let n = self.any_n(lent.length());
            self.all(&lent, n, WELL_FORMED);
        }
    }

    /// Every sort of damage, on heaps that have a list.
    fn damaged_heaps(&mut self, heaps: usize) {
        for _ in 0..heaps {
            for (name, make) in DAMAGES {
                let (mut lent, n) = self.about_to_be_damaged();
                make(&mut lent.heap, &mut self.random);
                lent.values = NO_VALUES.to_vec();
                self.all(&lent, n, name);
            }
            for (name, make) in VALUE_DAMAGES {
                let (mut lent, n) = self.about_to_be_damaged();
                make(&mut lent, &mut self.random);
                self.all(&lent, n, name);
            }
        }
    }

    /// A heap with a list, and a place in it or near its end.
    fn about_to_be_damaged(&mut self) -> (Lent, u32) {
        let (heap, cells) = self.any_listed();
        let n = self.random.below(cells.len() + 2);
        (Lent::of(&heap), n as u32)
    }

    /// Edits one after the other on what the one before left: from no cell until all are used, to
    /// and fro, and down to none. Values are put on some cells on the way.
    fn walks(&mut self, walks: usize) {
        for walk in 0..walks {
            let variables = FEWEST_VARIABLES + walk % (SLOTS + 1 - FEWEST_VARIABLES);
            let mut lent = Lent::of(&chained(Heap::empty(variables), &[]));
            for _ in 0..=CELLS {
                lent = self.insert_somewhere(&lent);
            }
            for _ in 0..CELLS {
                lent = match self.random.once_in(2) {
                    true => self.insert_somewhere(&lent),
                    false => self.remove_somewhere(&lent),
                };
            }
            while lent.length() > 0 {
                lent = self.remove_somewhere(&lent);
            }
            self.all(&lent, 1, WELL_FORMED);
        }
    }

    fn insert_somewhere(&mut self, lent: &Lent) -> Lent {
        let n = self.random.below(lent.length() + 1);
        let mut after = self.insert(lent, n as u32, WELL_FORMED);
        let cell = self.random.below(CELLS);
        if after.heap[stepper::MARKS.start + cell] == 1 {
            after.values[cell] = 1 + random_value(&mut self.random);
        }
        after
    }

    fn remove_somewhere(&mut self, lent: &Lent) -> Lent {
        let n = 1 + self.random.below(lent.length().max(1));
        self.remove(lent, n as u32, WELL_FORMED)
    }

    /// A place in a list of this length, one just past it, or one far off.
    fn any_n(&mut self, length: usize) -> u32 {
        let far = self.random.pick(&FAR);
        let near = self.random.below(length + 3) as u32;
        if self.random.once_in(8) {
            far
        } else {
            near
        }
    }

    fn any_listed(&mut self) -> (Heap, Vec<usize>) {
        let length = self.random.below(CELLS + 1);
        self.listed(length)
    }

    /// A heap of three variables or more with a list of so many cells in mixed order, most of them
    /// with values. Other variables and links are anywhere, many at cells of the list.
    fn listed(&mut self, length: usize) -> (Heap, Vec<usize>) {
        let random = &mut self.random;
        let any = iter::repeat_with(|| random_lent(random));
        let any = any.filter_map(|lent| stepper::heap_of(&lent.heap, &lent.values));
        let enough = |heap: &Heap| heap.variables.len() >= FEWEST_VARIABLES;
        let before = any.into_iter().find(enough);
        let before = before.expect("one in some has three variables");
        let cells = mixed(random, length);
        let mut heap = chained(before.clone(), &cells);
        heap.variables[1..].copy_from_slice(&before.variables[1..]);
        for &cell in &cells {
            if !random.once_in(4) {
                heap.values.insert(cell, random_value(random) as usize);
            }
        }
        let others = heap.links.iter_mut();
        let others = others.filter(|(cell, _)| !cells.contains(cell));
        let others = others.map(|(_, place)| place);
        for place in heap.variables[1..].iter_mut().chain(others) {
            if !cells.is_empty() && random.once_in(2) {
                let ends = [cells[0], cells[length - 1], random.pick(&cells)];
                *place = Place::Cell(random.pick(&ends));
            }
        }
        (heap, cells)
    }
}

/// So many different cells.
fn mixed(random: &mut Random, length: usize) -> Vec<usize> {
    let mut cells: Vec<usize> = (0..CELLS).collect();
    for taken in 0..length {
        let other = taken + random.below(CELLS - taken);
        cells.swap(taken, other);
    }
    cells.truncate(length);
    cells
}

/// Whether a remove turned something to * that the walk didn't move.
fn dangles_more(lent: &Lent, after: &Heap) -> bool {
    let dangling = |heap: &Heap| {
        let above = heap.variables[FEWEST_VARIABLES..].iter();
        let places = above.chain(heap.links.values());
        places.filter(|&&place| place == Place::Dangling).count()
    };
    let before = stepper::heap_of(&lent.heap, &lent.values);
    before.is_some_and(|before| dangling(after) > dangling(&before))
}
