//! What the ready sets mean, by trying all small heaps: the shapes as the proved library writes them,
//! embedding by the reference, and following links by hand.

use std::collections::{BTreeMap, BTreeSet};

use vorruda_host::compare::ready::forbid_in_library;
use vorruda_host::reference::embedding::embeds_somehow;
use vorruda_host::reference::heap::{Heap, Place};
use vorruda_host::reference::job::{Job, Located};
use vorruda_host::reference::ready::Set;
use vorruda_host::reference::shape::Shape;
use vorruda_host::reference::version::Version;

/// All heaps of one or two variables and so many cells.
fn heaps(variables: usize, cells: usize) -> Vec<Heap> {
    let places: Vec<Place> = [Place::Null, Place::Dangling]
        .into_iter()
        .chain((0..cells).map(Place::Cell))
        .collect();
    let mut lists: Vec<Vec<Place>> = vec![vec![]];
    for _ in 0..variables + cells {
        lists = lists
            .iter()
            .flat_map(|list| places.iter().map(|&place| [&list[..], &[place]].concat()))
            .collect();
    }
    let heap = |list: &Vec<Place>| Heap {
        variables: list[..variables].to_vec(),
        links: list[variables..]
            .iter()
            .copied()
            .enumerate()
            .collect::<BTreeMap<_, _>>(),
        values: Default::default(),
    };
    lists.iter().map(heap).collect()
}

/// Whether # is met by following links from a variable, and the cells that are.
fn met(heap: &Heap, variable: usize) -> (bool, BTreeSet<usize>) {
    let mut cells = BTreeSet::new();
    let mut place = heap.variables[variable - 1];
    while let Place::Cell(cell) = place {
        if !cells.insert(cell) {
            break;
        }
        place = heap.links[&cell];
    }
    (place == Place::Null, cells)
}

/// The shapes that the library adds.
fn added(variables: usize, set: Set) -> Vec<Shape> {
    let own = Located {
        state: 0,
        shape: Shape::of_codes(&vec![0; variables], &[]),
    };
    let job = Job {
        version: Version::One,
        variables: variables as u64,
        states: 1,
        start: 0,
        transitions: vec![],
        forbidden: vec![own],
    };
    let (mut bytes, mut filled) = ([0; 256], [0]);
    assert_eq!(
        forbid_in_library(&job.bytes(), set, &mut bytes, &mut filled),
        0
    );
    let job = Job::read(&bytes[..filled[0] as usize]).unwrap();
    job.forbidden[1..]
        .iter()
        .map(|located| located.shape.clone())
        .collect()
}

#[test]
fn the_sets_say_what_is_met() {
    let mut unmet = [0, 0];
    for (variables, most) in [(1, 4), (2, 3)] {
        for variable in 1..=variables {
            let number = variable as u32;
            let (not_list, lost_block) = (
                added(
                    variables,
                    Set::NotList {
                        variable: number,
                        state: 0,
                    },
                ),
                added(
                    variables,
                    Set::LostBlock {
                        variable: number,
                        state: 0,
                    },
                ),
            );
            assert_eq!((not_list.len(), lost_block.len()), (4, 6));
            for heap in (0..=most).flat_map(|cells| heaps(variables, cells)) {
                let seen = Shape::of_heap(&heap);
                let one_of = |set: &[Shape]| set.iter().any(|shape| embeds_somehow(shape, &seen));
                let (null, cells) = met(&heap, variable);
                assert_eq!(one_of(&not_list), !null, "{heap:?}");
                let lost = cells.len() < heap.links.len();
                assert_eq!(one_of(&lost_block), lost, "{heap:?}");
                unmet[0] += u32::from(!null);
                unmet[1] += u32::from(lost);
            }
        }
    }
    assert!(unmet[0] > 1_000 && unmet[1] > 1_000, "{unmet:?}");
}
