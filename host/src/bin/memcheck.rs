//! Calls the proved libraries with buffers that end where their allocation ends, so that valgrind sees
//! a byte read or written beside them, and compares their answers with the reference.
//!
//! `memcheck [PAIRS [SEED]]`: how many random pairs, as many with a cover that breaks rules, as many
//! with deletes, as many of version 2 if the library takes them, and as many that have what version 1
//! lacks or just don't; as many pairs of pairs to join; and from which seed.

use std::env;
use std::process::ExitCode;

use vorruda_host::compare::ready::forbid_in_library;
use vorruda_host::listings::{edges, Listings};
use vorruda_host::pairs::{
    beyond_pairs, broken_pairs, delete_pairs, joints, Joint, Pair, Pairs, ValuedPairs,
};
use vorruda_host::random::Random;
use vorruda_host::reference::block_list::{self, answer, chained};
#[cfg(feature = "carrying")]
use vorruda_host::reference::carry::{self, Carried};
use vorruda_host::reference::heap::Heap;
use vorruda_host::reference::join;
use vorruda_host::reference::listing::{translate, MARKS};
use vorruda_host::reference::ready::{forbid, Set};
use vorruda_host::reference::tally::{self, NUMBERS};
#[cfg(feature = "carrying")]
use vorruda_host::reference::version::Direction;
use vorruda_host::reference::version::Version;
use vorruda_host::reference::{checker, number, stepper};
#[cfg(feature = "carrying")]
use vorruda_host::verdict::Files;
use vorruda_host::verdict::Verdict;
use vorruda_host::{library, list_library, sweep};

const PAIRS: usize = 300;
const SEED: u64 = 0x0012_5eed;
const LISTS: usize = 300;
const STEPS: usize = 1_000;
const LIST_CALLS: usize = 500;
const LISTINGS: usize = 1_000;

/// One in so many of the listings at the limits is tried.
const EVERY: usize = 20;

fn main() -> ExitCode {
    let argument = |index, usual| match env::args().nth(index) {
        None => Some(usual),
        Some(text) => text.parse().ok().filter(|&number| number > 0),
    };
    let (Some(pairs), Some(seed)) = (argument(1, PAIRS as u64), argument(2, SEED)) else {
        eprintln!("usage: memcheck [PAIRS [SEED]]");
        return ExitCode::from(2);
    };
    let kinds = sweep::pairs(2).into_iter().map(|(_, pair)| pair);
    let broken = broken_pairs(Version::One, seed).take(pairs as usize);
    let deletes = delete_pairs(seed).take(pairs as usize);
    let checked = Pairs::new(seed).take(pairs as usize).chain(broken);
    let values = ValuedPairs::new(seed).take(pairs as usize);
    let beyond = beyond_pairs(seed).take(pairs as usize);
    let checked = checked.chain(deletes).chain(kinds).chain(values);
    let checked = checked.chain(beyond);
    let checked = checked.enumerate().map(check).count();
    let joined = joints(seed).take(pairs as usize);
    let joined = joined.enumerate().map(join_two).count();
    let mut random = Random::new(seed);
    (0..LISTS).for_each(|_| numbers(&mut random));
    steps(&mut random);
    list_calls(&mut random);
    let at_limits = edges().into_iter().step_by(EVERY);
    let listings = at_limits.chain(Listings::new(seed).take(LISTINGS));
    let listings = listings.enumerate().map(listing).count();
    println!(
        "{checked} pairs, each also with a tally{BOTH_WAYS}, {joined} joins, {LISTS} lists, {STEPS} steps, {LIST_CALLS} calls of the block list, \
         {listings} listings: as the reference"
    );
    ExitCode::SUCCESS
}

/// What is said where files are carried, too.
#[cfg(feature = "carrying")]
const BOTH_WAYS: &str = " and carried both ways";
#[cfg(not(feature = "carrying"))]
const BOTH_WAYS: &str = "";

/// A copy in an allocation of just its length.
fn exact<T: Copy>(slice: &[T]) -> Box<[T]> {
    slice.into()
}

fn check((turn, Pair { job, certificate }): (usize, Pair)) {
    let (job, certificate) = (exact(&job), exact(&certificate));
    let verdict = checker::check(&job, &certificate);
    let expected = verdict.number();
    let mut out = exact(&[0; 4][..turn % 5]);
    assert_eq!(library::check(&job, &certificate), expected);
    assert_eq!(library::verdict(&job, &certificate, &mut out), expected);
    take_in(&job, &certificate, &verdict, turn);
    let (variable, state) = (turn as u32 % 4, turn as u32 % 3);
    ready(&job, Set::NotList { variable, state }, turn);
    ready(&job, Set::LostBlock { variable, state }, turn);
    ready(&job, Set::BadSteps, turn);
    #[cfg(feature = "carrying")]
    for direction in Direction::BOTH {
        carried(direction, (&job, &certificate), turn);
    }
}

/// Both files carried, in room that is too little, just enough or more.
#[cfg(feature = "carrying")]
fn carried(direction: Direction, files: Files, turn: usize) {
    let of_job = carry::job(direction, files.0);
    let of_certificate = carry::certificate(direction, files);
    let exactly = |carried: &Carried| carried.as_ref().map_or(1, Vec::len) + turn % 3 - 1;
    let mut out = exact(&[0; 3][..turn % 4]);
    let mut bytes = exact(&vec![0; exactly(&of_job)]);
    let number = library::carry::job(direction, files.0, &mut bytes, &mut out);
    written(number, &bytes, of_job);
    let mut bytes = exact(&vec![0; exactly(&of_certificate)]);
    let number = library::carry::certificate(direction, files, &mut bytes, &mut out);
    written(number, &bytes, of_certificate);
}

/// What a call returned and wrote is what the reference carried, in as much room.
#[cfg(feature = "carrying")]
fn written(number: u32, bytes: &[u8], carried: Carried) {
    match carry::in_room(carried, bytes.len()) {
        Ok(expected) => assert_eq!((number, &bytes[..expected.len()]), (0, &expected[..])),
        Err(refused) => assert_eq!(number, refused.number),
    }
}

/// Two pairs joined, all at once, and each in turn without its last byte.
fn join_two((turn, joint): (usize, Joint)) {
    let [first, second] = joint
        .files()
        .map(|(job, certificate)| (exact(job), exact(certificate)));
    let whole = (first.0.len(), first.1.len(), second.0.len(), second.1.len());
    let cut = [
        whole,
        (whole.0 - 1, whole.1, whole.2, whole.3),
        (whole.0, whole.1 - 1, whole.2, whole.3),
        (whole.0, whole.1, whole.2 - 1, whole.3),
        (whole.0, whole.1, whole.2, whole.3 - 1),
    ];
    for (job1, certificate1, job2, certificate2) in cut {
        let first = (exact(&first.0[..job1]), exact(&first.1[..certificate1]));
        let second = (exact(&second.0[..job2]), exact(&second.1[..certificate2]));
        let files = ((&first.0[..], &first.1[..]), (&second.0[..], &second.1[..]));
        let mut out = exact(&[0; 9][..turn % 10]);
        let number = library::join(files.0, files.1, joint.state, &mut out);
        assert_eq!(number, join::join(files.0, files.1, joint.state).number());
    }
}

/// The verdict taken into a tally that is short, exact, longer or full, and its report, in room that is
/// too little, just enough or more.
fn take_in(job: &[u8], certificate: &[u8], verdict: &Verdict, turn: usize) {
    let length = [0, NUMBERS - 1, NUMBERS, NUMBERS, NUMBERS + 1][turn % 5];
    let number = [0, 1, turn as u32, u32::MAX - 1, u32::MAX][turn / 5 % 5];
    let before = exact(&vec![number; length]);
    let mut after = before.clone();
    let mut out = exact(&[0; 5][..turn % 6]);
    let number = library::tally_verdict(job, certificate, &mut after, &mut out);
    let taken = tally::take_in(&before, verdict);
    let (expected, _, left) = tally::answer(&before, verdict, &taken);
    assert_eq!((number, after.to_vec()), (expected, left));
    let room = tally::report(&after, usize::MAX).map_or(1, |text| text.len());
    let room = exact(&vec![0; room + turn % 3 - 1]);
    let mut text = room.clone();
    let mut out = exact(&[0; 3][..turn % 4]);
    let number = library::tally_report(&after, &mut text, &mut out);
    let (expected, _, left) = tally::report_answer(&tally::report(&after, room.len()), &room);
    assert_eq!((number, text.to_vec()), (expected, left));
}

/// A ready set, in room that is too little, just enough or more.
fn ready(job: &[u8], set: Set, turn: usize) {
    let room = match forbid(job, set, usize::MAX) {
        Ok(bytes) => bytes.len() + turn % 3 - 1,
        Err(_) => turn % 3,
    };
    let mut bytes = exact(&vec![0; room]);
    let mut out = exact(&[0; 2][..turn % 3]);
    let number = forbid_in_library(job, set, &mut bytes, &mut out);
    match forbid(job, set, room) {
        Ok(expected) => assert_eq!((number, expected[..] == bytes[..expected.len()]), (0, true)),
        Err(refused) => assert_eq!(number, refused.number),
    }
}

/// A listing, in room that is too little, just enough or more, with and without room for the marks.
fn listing((turn, text): (usize, Vec<u8>)) {
    let text = exact(&text);
    let room = translate(&text, usize::MAX).map_or(1, |translated| translated.bytes.len());
    let room = room + turn % 3 - 1;
    let mut bytes = exact(&vec![0; room]);
    let mut marks = exact(&vec![0; MARKS * (turn % 2)]);
    let mut out = exact(&[0; 2][..turn % 3]);
    let number = library::translate(&text, &mut bytes, &mut marks, &mut out);
    match translate(&text, room) {
        Ok(expected) => {
            assert_eq!(
                (number, &bytes[..expected.bytes.len()]),
                (0, &expected.bytes[..])
            );
            assert!(marks.is_empty() || marks[..] == expected.marks);
        }
        Err(refused) => assert_eq!(number, refused.number),
    }
}

/// A list written to room that is short, enough or none, and read from every place.
fn numbers(random: &mut Random) {
    let list: Vec<u64> = (0..random.below(8))
        .map(|_| random.pick(&[0, 127, 128, 300, 65_535, 65_536]))
        .collect();
    let mut expected = vec![0; random.below(20)];
    let mut bytes = exact(&expected);
    let mut out = exact(&[0; 2][..random.below(3)]);
    number::write_list(&list, &mut expected);
    library::write_numbers(&exact(&list), &mut bytes, &mut out);
    assert_eq!(expected[..], bytes[..]);
    for at in 0..bytes.len() + 2 {
        let expected = number::read(&bytes, at).map_or(3, |_| 0);
        assert_eq!(library::read_number(&bytes, at, &mut out), expected);
    }
}

/// A walk from the empty heap, with a damaged or shortened heap now and then.
fn steps(random: &mut Random) {
    let mut heap = exact(&stepper::bytes_of(&Heap::empty(4)));
    let mut values = exact(&stepper::NO_VALUES);
    for _ in 0..STEPS {
        let kind = random.pick(&[1, 2, 3, 4, 5, 5, 6, 6, 6, 7, 8, 9, 10, 11, 12, 13, 13, 14]);
        let (a, b) = (random.below(6) as u32, random.pick(&[0, 0, 1, 2, 3, 4]));
        let value = random.below(5) as u16;
        if random.once_in(10) {
            let mut damaged = exact(&heap[random.below(3)..]);
            damaged[random.below(134)] = random.below(256) as u8;
            library::step(&mut damaged, kind, a, b);
            let mut short = exact(&values[random.below(64)..]);
            library::step_values(&mut damaged, &mut short, (kind, a, b), value);
        }
        let numbers = (kind.into(), a.into(), b.into());
        let expected = match stepper::step_values(&heap, &values, numbers, value) {
            stepper::Step::Moved(after) => (
                exact(&stepper::bytes_of(&after)),
                exact(&stepper::values_of(&after)),
            ),
            _ => (heap.clone(), values.clone()),
        };
        library::step_values(&mut heap, &mut values, (kind, a, b), value);
        assert_eq!((&heap, &values), (&expected.0, &expected.1));
    }
}

/// A list that grows and shrinks, with a damaged or shortened heap now and then.
fn list_calls(random: &mut Random) {
    let mut heap = exact(&stepper::bytes_of(&chained(Heap::empty(5), &[])));
    let mut values = exact(&stepper::NO_VALUES);
    for _ in 0..LIST_CALLS {
        if random.once_in(10) {
            let mut damaged = exact(&heap[random.below(3)..]);
            damaged[random.below(134)] = random.below(256) as u8;
            list_call(random, &mut damaged, &mut values.clone());
            let mut short = exact(&values[random.below(64)..]);
            list_call(random, &mut heap.clone(), &mut short);
        }
        list_call(random, &mut heap, &mut values);
    }
}

/// Two inserts for each remove and each count, most of them within the list.
fn list_call(random: &mut Random, heap: &mut [u8], values: &mut [u32]) {
    let (bytes, numbers) = (exact(heap), exact(values));
    let n = random.below(70) as u32 / (1 + random.below(9) as u32);
    let (after, number) = match random.below(4) {
        0 => {
            let mut out = exact(&[0; 2][..random.below(3)]);
            let counted = block_list::count(heap, values);
            let number = list_library::count(heap, values, &mut out);
            (counted.map(|(heap, _)| heap), number)
        }
        1 => (
            block_list::remove(heap, values, n),
            list_library::remove(heap, values, n),
        ),
        _ => (
            block_list::insert(heap, values, n),
            list_library::insert(heap, values, n),
        ),
    };
    let left = (number, heap.to_vec(), values.to_vec());
    assert_eq!(left, answer(&bytes, &numbers, &after));
}
