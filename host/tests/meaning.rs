//! What a listing means, by running its statements: the heaps that reach each mark are those with
//! which the transitions reach the mark's state, on random listings and small heaps.

use std::collections::{BTreeSet, HashSet};

use vorruda_host::listings::right;
use vorruda_host::random::Random;
use vorruda_host::reference::heap::Heap;
use vorruda_host::reference::job::Job;
use vorruda_host::reference::listing::{translate, NO_STATE};
use vorruda_host::reference::operation::{
    Operation, ASSIGN, DELETE, DIFFERENT, EQUAL, LOAD, NEW, STORE,
};

/// Runs go on as long as a heap has at most so many cells.
const CELLS: usize = 3;

/// Nothing for `any`.
type Test = Option<Operation>;

#[derive(Clone, Debug, PartialEq, Eq)]
enum Statement {
    Do(Operation),
    Mark(usize),
    While(Test, Vec<Statement>),
    If(Test, Vec<Statement>),
}

/// The statements of lines, up to the end of the block.
fn block<'a>(lines: &mut impl Iterator<Item = &'a str>, names: &mut Vec<String>) -> Vec<Statement> {
    let mut block_of = Vec::new();
    while let Some(line) = lines.next() {
        let words: Vec<&str> = line.split(' ').collect();
        block_of.push(match words[..] {
            ["end"] => break,
            ["mark", number] => Statement::Mark(number.parse().unwrap()),
            ["while", ref words @ ..] => {
                let test = test(words, names);
                Statement::While(test, block(lines, names))
            }
            ["if", ref words @ ..] => {
                let test = test(words, names);
                Statement::If(test, block(lines, names))
            }
            ref words => Statement::Do(operation(words, names)),
        });
    }
    block_of
}

fn test(words: &[&str], names: &mut Vec<String>) -> Test {
    match words {
        ["any"] => None,
        _ => Some(operation(words, names)),
    }
}

fn operation(words: &[&str], names: &mut Vec<String>) -> Operation {
    let mut operand = |word: &str| {
        let name = word.trim_end_matches(".next").trim_end_matches(')');
        let name = name.rsplit('(').next().unwrap();
        if name == "null" {
            return 0;
        }
        if !names.iter().any(|known| known == name) {
            names.push(name.to_string());
        }
        1 + names.iter().position(|known| known == name).unwrap()
    };
    let (kind, a, b) = match *words {
        [a, "=", b] => (EQUAL, operand(a), operand(b)),
        [a, "!=", b] => (DIFFERENT, operand(a), operand(b)),
        [a, _, b] if a.ends_with(".next") => (STORE, operand(a), operand(b)),
        [a, _, b] if b.ends_with(".next") => (LOAD, operand(a), operand(b)),
        [a, _, b] => (ASSIGN, operand(a), operand(b)),
        [a] if a.starts_with("new") => (NEW, operand(a), 0),
        [a] => (DELETE, operand(a), 0),
        _ => panic!("{words:?}"),
    };
    Operation { kind, a, b }
}

/// The heap after an operation, with the lowest unused cell for new; nothing where it is blocked or
/// the heap would be too large.
fn after(heap: &Heap, operation: Operation) -> Option<Heap> {
    let fresh = (0..).find(|cell| !heap.links.contains_key(cell))?;
    let after = heap.after(operation, fresh)?;
    (after.links.len() <= CELLS).then_some(after)
}

/// The heaps with which a test holds, or its opposite.
fn decided(heap: &Heap, test: Test, holds: bool) -> Option<Heap> {
    match test {
        None => Some(heap.clone()),
        Some(test) => {
            let opposite = EQUAL + DIFFERENT - test.kind;
            let kind = if holds { test.kind } else { opposite };
            after(heap, Operation { kind, ..test })
        }
    }
}

/// All that is come to from a beginning, step by step.
fn all_from<T: Clone>(begin: T, key: impl Fn(&T) -> String, next: impl Fn(&T) -> Vec<T>) -> Vec<T> {
    let mut seen: HashSet<String> = HashSet::from([key(&begin)]);
    let mut all = vec![begin];
    let mut done = 0;
    while done < all.len() {
        for one in next(&all[done]) {
            if seen.insert(key(&one)) {
                all.push(one);
            }
        }
        done += 1;
    }
    all
}

/// Each mark that is next, with the heap, in a run over statements.
fn by_statements(statements: Vec<Statement>, variables: usize) -> BTreeSet<(usize, String)> {
    let key = |remains: &(Vec<Statement>, Heap)| format!("{remains:?}");
    let next = |(remains, heap): &(Vec<Statement>, Heap)| {
        let Some((first, rest)) = remains.split_first() else {
            return Vec::new();
        };
        let rest = rest.to_vec();
        let ways = match first {
            Statement::Do(operation) => vec![(rest, after(heap, *operation))],
            Statement::Mark(_) => vec![(rest, Some(heap.clone()))],
            Statement::While(test, body) => vec![
                ([&body[..], remains].concat(), decided(heap, *test, true)),
                (rest, decided(heap, *test, false)),
            ],
            Statement::If(test, body) => vec![
                ([&body[..], &rest].concat(), decided(heap, *test, true)),
                (rest, decided(heap, *test, false)),
            ],
        };
        let ways = ways.into_iter();
        ways.filter_map(|(remains, heap)| Some((remains, heap?)))
            .collect()
    };
    let all = all_from((statements, Heap::empty(variables)), key, next);
    let marked = all
        .iter()
        .filter_map(|(remains, heap)| match remains.first() {
            Some(Statement::Mark(number)) => Some((*number, format!("{heap:?}"))),
            _ => None,
        });
    marked.collect()
}

/// The same by the transitions and the marks' states.
fn by_transitions(job: &Job, marks: &[u8]) -> BTreeSet<(usize, String)> {
    let begin = (job.start, Heap::empty(job.variables as usize));
    let key = |at: &(u64, Heap)| format!("{at:?}");
    let next = |(state, heap): &(u64, Heap)| {
        let leaving = job.transitions.iter().filter(|step| step.from == *state);
        leaving
            .filter_map(|step| Some((step.to, after(heap, step.operation)?)))
            .collect()
    };
    let mut marked = BTreeSet::new();
    for (state, heap) in all_from(begin, key, next) {
        for (number, _) in marks
            .iter()
            .enumerate()
            .filter(|(_, &mark)| u64::from(mark) == state)
        {
            marked.insert((number, format!("{heap:?}")));
        }
    }
    marked
}

#[test]
fn statements_and_transitions_reach_the_same() {
    let mut random = Random::new(0x15_5eed);
    let mut reached = 0;
    let mut unreached = 0;
    let mut tried = 0;
    while tried < 1_500 {
        let text = String::from_utf8(right(&mut random)).unwrap();
        let text = format!("t := null\nnew(p)\n{text}mark 62\n");
        if text.lines().count() > 24 || text.contains("mark 62\nmark") {
            continue;
        }
        let Ok(translated) = translate(text.as_bytes(), usize::MAX) else {
            continue;
        };
        let mut names = Vec::new();
        let statements = block(&mut text.lines(), &mut names);
        if names.len() > 3 {
            continue;
        }
        tried += 1;
        let forbidden = [&[1, 0, 0], &vec![0; names.len()][..]].concat();
        let job = Job::read(&[translated.bytes, forbidden].concat()).unwrap();
        let expected = by_statements(statements, names.len());
        assert_eq!(by_transitions(&job, &translated.marks), expected, "{text}");
        let marks = translated
            .marks
            .iter()
            .filter(|&&state| state != NO_STATE)
            .count();
        let met: BTreeSet<usize> = expected.iter().map(|&(mark, _)| mark).collect();
        reached += met.len();
        unreached += marks - met.len();
    }
    assert!(
        reached > 500 && unreached > 100,
        "{reached} and {unreached}"
    );
}
