//! The facts a certificate rests on, by trying small heaps and shapes: if the heap after an
//! operation satisfies a shape, the heap before satisfies one of its predecessors; and embeddings
//! compose. Deletes forget links to * and nothing else.

use std::collections::BTreeMap;

use vorruda_host::random::Random;
use vorruda_host::reference::embedding::embeds_somehow;
use vorruda_host::reference::heap::{Heap, Place};
use vorruda_host::reference::operation::{operation, Operation, DELETE, KINDS};
use vorruda_host::reference::predecessor::predecessors;
use vorruda_host::reference::shape::Shape;

/// All lists of so many codes, each from the given ones.
fn lists(codes: &[u64], length: usize) -> Vec<Vec<u64>> {
    let mut lists = vec![vec![]];
    for _ in 0..length {
        lists = lists
            .iter()
            .flat_map(|list| codes.iter().map(|&code| [&list[..], &[code]].concat()))
            .collect();
    }
    lists
}

/// All shapes with so many variables and cells, with codes from `lowest` up.
fn all_shapes(variables: usize, cells: usize, lowest: u64) -> Vec<Shape> {
    let codes: Vec<u64> = (lowest..3 + cells as u64).collect();
    lists(&codes, variables + cells)
        .iter()
        .map(|list| Shape::of_codes(&list[..variables], &list[variables..]))
        .collect()
}

/// The heap that a shape without a nowhere is.
fn heap_of(shape: &Shape) -> Heap {
    let place = |place: &Option<Place>| place.expect("in a heap everything has a place");
    Heap {
        variables: shape.variables.iter().map(place).collect(),
        links: shape
            .links
            .iter()
            .map(place)
            .enumerate()
            .collect::<BTreeMap<_, _>>(),
        values: Default::default(),
    }
}

fn all_operations(variables: u64) -> Vec<Operation> {
    let mut all = Vec::new();
    for kind in KINDS {
        for a in 0..=variables {
            all.extend((0..=variables).filter_map(|b| operation(kind, a, b, variables)));
        }
    }
    all
}

/// Whether the fact was put to the test: the step moves, and the heap after it satisfies the shape.
fn one_step(before: &Shape, operation: Operation, shape: &Shape) -> bool {
    let fresh = before.cells();
    let Some(after) = heap_of(before).after(operation, fresh) else {
        return false;
    };
    if !embeds_somehow(shape, &Shape::of_heap(&after)) {
        return false;
    }
    let all = predecessors(shape, operation);
    assert!(
        all.iter().any(|predecessor| embeds_somehow(predecessor, before)),
        "{operation:?} leads from {before:?} to {shape:?}, but no predecessor is satisfied: {all:?}"
    );
    assert!(all
        .iter()
        .all(|predecessor| predecessor.cells() <= shape.cells() + 2));
    true
}

#[test]
fn one_step_on_all_small_heaps() {
    let mut tested = 0;
    for (variables, heap_cells, shape_cells) in [(1, 3, 2), (2, 2, 1), (2, 1, 2), (3, 1, 1)] {
        let heaps: Vec<Shape> = (0..=heap_cells)
            .flat_map(|cells| all_shapes(variables, cells, 1))
            .collect();
        let shapes: Vec<Shape> = (0..=shape_cells)
            .flat_map(|cells| all_shapes(variables, cells, 0))
            .collect();
        for operation in all_operations(variables as u64) {
            for heap in &heaps {
                tested += shapes
                    .iter()
                    .filter(|shape| one_step(heap, operation, shape))
                    .count();
            }
        }
    }
    assert!(
        tested > 100_000,
        "only {tested} cases put the fact to the test"
    );
}

/// Of a shape without links to *: a heap that satisfies a predecessor satisfies the shape after the
/// delete.
#[test]
fn before_a_delete_links_alone_are_forgotten() {
    let mut satisfied = 0;
    for (variables, heap_cells, shape_cells) in [(1, 3, 2), (2, 2, 1), (3, 2, 1)] {
        let heaps: Vec<Shape> = (1..=heap_cells)
            .flat_map(|cells| all_shapes(variables, cells, 1))
            .collect();
        let shapes = (0..=shape_cells).flat_map(|cells| all_shapes(variables, cells, 0));
        let without_links_to_dangling =
            shapes.filter(|shape| !shape.links.contains(&Some(Place::Dangling)));
        for shape in without_links_to_dangling {
            let delete = Operation {
                kind: DELETE,
                a: 1,
                b: 0,
            };
            let before = predecessors(&shape, delete);
            let is_before =
                |heap: &&Shape| before.iter().any(|before| embeds_somehow(before, heap));
            for heap in heaps.iter().filter(is_before) {
                let after = heap_of(heap).after(delete, usize::MAX);
                let after = Shape::of_heap(&after.expect("a is at a cell"));
                assert!(embeds_somehow(&shape, &after), "{heap:?} {shape:?}");
                satisfied += 1;
            }
        }
    }
    assert!(satisfied > 10_000, "only {satisfied}");
}

fn random_shape(random: &mut Random, variables: usize, cells: usize, lowest: u64) -> Shape {
    let mut codes = |count| -> Vec<u64> {
        let span = 3 + cells - lowest as usize;
        (0..count)
            .map(|_| lowest + random.below(span) as u64)
            .collect()
    };
    Shape::of_codes(&codes(variables), &codes(cells))
}

/// A shape that is likely to embed in the heap: part of it, or all, contracted or not.
fn part_of(random: &mut Random, heap: &Shape) -> Shape {
    let mut shape = heap.clone();
    for place in shape.variables.iter_mut().chain(&mut shape.links) {
        if random.once_in(3) {
            *place = None;
        }
    }
    shape
}

#[test]
fn one_step_on_random_heaps() {
    let mut random = Random::new(0x5_5eed);
    let mut tested = 0;
    for _ in 0..60_000 {
        let variables = 1 + random.below(3);
        let cells = random.below(5);
        let before = random_shape(&mut random, variables, cells, 1);
        let operation = random.pick(&all_operations(variables as u64));
        let Some(after) = heap_of(&before).after(operation, before.cells()) else {
            continue;
        };
        let shape = part_of(&mut random, &Shape::of_heap(&after));
        tested += usize::from(one_step(&before, operation, &shape));
    }
    assert!(
        tested > 20_000,
        "only {tested} cases put the fact to the test"
    );
}

#[test]
fn embeddings_compose() {
    let mut random = Random::new(0x6_5eed);
    let mut tested = 0;
    for _ in 0..200_000 {
        let mut shape = |cells| random_shape(&mut random, 1, cells, 0);
        let (small, middle, large) = (shape(2), shape(3), shape(4));
        if embeds_somehow(&small, &middle) && embeds_somehow(&middle, &large) {
            assert!(
                embeds_somehow(&small, &large),
                "{small:?} {middle:?} {large:?}"
            );
            tested += 1;
        }
    }
    assert!(tested > 500, "only {tested} cases put the fact to the test");
}
