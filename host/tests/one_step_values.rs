//! What a certificate rests on where cells have values, by trying small heaps and shapes with facts: if
//! the heap after an operation satisfies a shape, the heap before satisfies one of its predecessors; and
//! embeddings compose. Predecessors say all that is known, but for deletes and for a value that is
//! compared with the one that it takes the place of.

use std::collections::BTreeMap;

use vorruda_host::random::Random;
use vorruda_host::reference::embedding::embeds_somehow;
use vorruda_host::reference::facts::{Fact, Relation};
use vorruda_host::reference::heap::{Heap, Place};
use vorruda_host::reference::operation::{
    operation, Operation, DELETE, LARGER, NEW, READ, SMALLER, VALUE_KINDS,
};
use vorruda_host::reference::predecessor::predecessors;
use vorruda_host::reference::shape::Shape;
use vorruda_host::reference::version::Version;

/// All lists of so many of the given things.
fn lists<T: Copy>(things: &[T], length: usize) -> Vec<Vec<T>> {
    let mut lists = vec![vec![]];
    for _ in 0..length {
        let longer = |list: &Vec<T>| -> Vec<Vec<T>> {
            let with = |&thing: &T| [&list[..], &[thing]].concat();
            things.iter().map(with).collect()
        };
        lists = lists.iter().flat_map(longer).collect();
    }
    lists
}

fn all_operations(variables: usize) -> Vec<Operation> {
    let mut all = Vec::new();
    for kind in Version::Two.kinds() {
        for a in 0..=variables as u64 {
            let operands = 0..=variables as u64;
            all.extend(operands.filter_map(|b| operation(kind, a, b, variables as u64)));
        }
    }
    all
}

/// An operation of any kind, each as often as the others.
fn random_operation(random: &mut Random, variables: usize) -> Operation {
    let kind = 1 + random.below(*Version::Two.kinds().end() as usize) as u64;
    let all = all_operations(variables).into_iter();
    let of_kind: Vec<Operation> = all.filter(|operation| operation.kind == kind).collect();
    random.pick(&of_kind)
}

/// What an operation may leave open on a heap whose cells are the first numbers: the cell that is new,
/// or a value.
fn choices(operation: Operation, heap: &Heap, values: &[usize]) -> Vec<usize> {
    match operation.kind {
        NEW => vec![heap.links.len()],
        LARGER | SMALLER | READ => values.to_vec(),
        _ => vec![0],
    }
}

/// A heap with these codes of places and these values.
fn heap(variables: &[u64], links: &[u64], values: &[Option<usize>]) -> Heap {
    let place = |code: &u64| Place::of_code(*code).expect("in a heap everything has a place");
    let numbered = values.iter().enumerate();
    Heap {
        variables: variables.iter().map(place).collect(),
        links: links.iter().map(place).enumerate().collect(),
        values: numbered
            .filter_map(|(cell, value)| Some((cell, (*value)?)))
            .collect::<BTreeMap<_, _>>(),
    }
}

fn all_facts(cells: usize) -> Vec<Fact> {
    let mut facts = Vec::new();
    for relation in Relation::ALL {
        for i in 0..cells {
            facts.extend((0..cells).map(|j| Fact { relation, i, j }));
        }
    }
    facts
}

/// All choices of up to two of the facts on so many cells.
fn few_facts(cells: usize) -> Vec<Vec<Fact>> {
    let all = all_facts(cells);
    let mut few = vec![vec![]];
    for (number, &fact) in all.iter().enumerate() {
        few.push(vec![fact]);
        few.extend(all[number + 1..].iter().map(|&other| vec![fact, other]));
    }
    few
}

/// All heaps with so many variables and cells whose links are at #, without a value or with one below
/// three.
fn all_heaps(variables: usize, cells: usize) -> Vec<Heap> {
    let places: Vec<u64> = (1..3 + cells as u64).collect();
    let all_values = lists(&[None, Some(0), Some(1), Some(2)], cells);
    let with_values = |codes: Vec<u64>| {
        let of = |values: &Vec<Option<usize>>| heap(&codes, &vec![1; cells], values);
        all_values.iter().map(of).collect::<Vec<Heap>>()
    };
    let all_places = lists(&places, variables).into_iter();
    all_places.flat_map(with_values).collect()
}

/// All shapes with so many variables and cells without links, and up to two facts.
fn all_shapes(variables: usize, cells: usize) -> Vec<Shape> {
    let places: Vec<u64> = (0..3 + cells as u64).collect();
    let few = few_facts(cells);
    let with_facts = |codes: Vec<u64>| {
        let shape = Shape::of_codes(&codes, &vec![0; cells]);
        let with = |facts: &Vec<Fact>| shape.clone().with_facts(facts.clone());
        few.iter().map(with).collect::<Vec<Shape>>()
    };
    let all_places = lists(&places, variables).into_iter();
    all_places.flat_map(with_facts).collect()
}

/// A shape and what comes before it.
struct Before {
    shape: Shape,
    predecessors: Vec<Shape>,
}

impl Before {
    fn of(shape: Shape, operation: Operation) -> Before {
        Before {
            predecessors: predecessors(&shape, operation),
            shape,
        }
    }

    fn is_satisfied_by(&self, heap: &Shape) -> bool {
        let mut all = self.predecessors.iter();
        all.any(|predecessor| embeds_somehow(predecessor, heap))
    }
}

/// How often a heap after an operation satisfied a shape.
fn one_step(before: &Heap, operation: Operation, shapes: &[Before]) -> usize {
    let whole = Shape::of_heap(before);
    let choices = choices(operation, before, &[0, 1, 2, 3]);
    let steps = choices.into_iter().filter_map(|choice| {
        let after = Shape::of_heap(&before.after(operation, choice)?);
        let satisfied = shapes
            .iter()
            .filter(|one| embeds_somehow(&one.shape, &after));
        let told = satisfied.inspect(|one| {
            assert!(
                one.is_satisfied_by(&whole),
                "{operation:?} of {choice} leads from {before:?} to {:?}, but no predecessor is \
                 satisfied: {:?}",
                one.shape,
                one.predecessors,
            );
        });
        Some(told.count())
    });
    steps.sum()
}

#[test]
fn one_step_on_all_small_heaps() {
    let mut tested = 0;
    for (variables, heap_cells, shape_cells) in [(1, 3, 2), (2, 2, 2)] {
        let heaps: Vec<Heap> = (0..=heap_cells)
            .flat_map(|cells| all_heaps(variables, cells))
            .collect();
        for operation in all_operations(variables) {
            let shapes = (0..=shape_cells).flat_map(|cells| all_shapes(variables, cells));
            let shapes: Vec<Before> = shapes.map(|shape| Before::of(shape, operation)).collect();
            let steps = heaps.iter().map(|heap| one_step(heap, operation, &shapes));
            tested += steps.sum::<usize>();
        }
    }
    assert!(tested > 400_000, "only {tested}");
}

/// A heap of up to so many cells; its values are some of those given, if any.
fn random_heap(random: &mut Random, variables: usize, cells: usize, values: &[usize]) -> Heap {
    let mut place = || match cells > 0 && !random.once_in(6) {
        true => 3 + random.below(cells) as u64,
        false => 1 + random.below(2) as u64,
    };
    let mut codes = |count: usize| -> Vec<u64> { (0..count).map(|_| place()).collect() };
    let (places, links) = (codes(variables), codes(cells));
    let mut value = || (!random.once_in(6)).then(|| random.pick(values));
    let values: Vec<Option<usize>> = (0..cells).map(|_| value()).collect();
    heap(&places, &links, &values)
}

/// A part of a heap: some places and facts are left out.
fn part_of(random: &mut Random, heap: &Shape) -> Shape {
    let mut shape = heap.clone();
    for place in shape.variables.iter_mut().chain(&mut shape.links) {
        if random.once_in(3) {
            *place = None;
        }
    }
    shape.facts.retain(|_| random.once_in(2));
    shape
}

#[test]
fn one_step_on_random_heaps() {
    let mut random = Random::new(0x1c_5eed);
    let mut tested = [0; 14];
    for _ in 0..100_000 {
        let variables = random.pick(&[1, 2, 3, 3]);
        let cells = random.below(6);
        let before = random_heap(&mut random, variables, cells, &[0, 1, 2, 3]);
        let operation = random_operation(&mut random, variables);
        let choice = random.pick(&choices(operation, &before, &[0, 1, 2, 3, 4]));
        let Some(after) = before.after(operation, choice) else {
            continue;
        };
        let shape = part_of(&mut random, &Shape::of_heap(&after));
        let shapes = [Before::of(shape, operation)];
        tested[operation.kind as usize] += one_step(&before, operation, &shapes);
    }
    let fewest = tested[1..].iter().min();
    assert!(fewest > Some(&200), "{tested:?}");
}

/// Values with room between them, above and below, and all that can be told apart from them.
const SPREAD: [usize; 3] = [10, 20, 30];
const BETWEEN: [usize; 7] = [5, 10, 15, 20, 25, 30, 35];

/// Whether every heap that satisfies a predecessor has a step to the shape: all but deletes, which
/// forget links, and larger or smaller values than a cell had itself.
fn forgets_nothing(operation: Operation, predecessor: &Shape) -> bool {
    match operation.kind {
        DELETE => false,
        LARGER | SMALLER => predecessor.place(operation.a) != predecessor.place(operation.b),
        _ => true,
    }
}

#[test]
fn predecessors_say_all_that_is_known() {
    let mut random = Random::new(0x1d_5eed);
    let mut tested = [0; 14];
    for _ in 0..100_000 {
        let variables = random.pick(&[1, 2, 3, 3]);
        let cells = random.below(5);
        let before = random_heap(&mut random, variables, cells, &SPREAD);
        let whole = Shape::of_heap(&before);
        let operation = random_operation(&mut random, variables);
        let choice = random.pick(&choices(operation, &before, &BETWEEN));
        let Some(after) = before.after(operation, choice) else {
            continue;
        };
        let mut shape = part_of(&mut random, &Shape::of_heap(&after));
        let all = all_facts(shape.cells());
        for _ in 0..random.below(3) {
            shape.facts.extend(all.get(random.below(all.len() + 1)));
        }
        shape.facts.sort();
        shape.facts.dedup();
        for predecessor in predecessors(&shape, operation) {
            let is_told = forgets_nothing(operation, &predecessor);
            if !is_told || !embeds_somehow(&predecessor, &whole) {
                continue;
            }
            let mut steps = choices(operation, &before, &BETWEEN).into_iter();
            let leads = steps.any(|choice| match before.after(operation, choice) {
                Some(after) => embeds_somehow(&shape, &Shape::of_heap(&after)),
                None => false,
            });
            assert!(
                leads,
                "{before:?} satisfies {predecessor:?}, but {operation:?} doesn't lead to {shape:?}"
            );
            tested[operation.kind as usize] += 1;
        }
    }
    for kind in (1..DELETE).chain(VALUE_KINDS) {
        let count = tested[kind as usize];
        assert!(count > 100, "kind {kind}: only {count} of {tested:?}");
    }
}

#[test]
fn embeddings_with_facts_compose() {
    let mut random = Random::new(0x1e_5eed);
    let mut tested = 0;
    for _ in 0..200_000 {
        let mut shape = |cells: usize| {
            let heap = Shape::of_heap(&random_heap(&mut random, 1, cells, &[0, 1]));
            part_of(&mut random, &heap)
        };
        let (small, middle, large) = (shape(2), shape(3), shape(4));
        if embeds_somehow(&small, &middle) && embeds_somehow(&middle, &large) {
            assert!(
                embeds_somehow(&small, &large),
                "{small:?} {middle:?} {large:?}"
            );
            tested += usize::from(!small.facts.is_empty());
        }
    }
    assert!(tested > 200, "only {tested}");
}
