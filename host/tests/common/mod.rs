//! What several tests use.

use vorruda_host::reference::checker::empty_heap_satisfies;
use vorruda_host::reference::embedding::embeds_somehow;
use vorruda_host::reference::facts::closed;
use vorruda_host::reference::heap::{Heap, Place};
use vorruda_host::reference::job::{Job, Located};
use vorruda_host::reference::operation::{Operation, LARGER, NEW, READ, SMALLER};
use vorruda_host::reference::predecessor::predecessors;
use vorruda_host::reference::shape::Shape;
use vorruda_host::search::chain::{Chain, Link};
use vorruda_host::search::run::{Run, WrongRun};

/// From the empty heap at the start, by enabled steps, to a heap that satisfies the forbidden shape.
pub fn assert_wrong_run_holds(job: &Job, wrong: &WrongRun, name: &str) {
    let bad = &job.forbidden[wrong.forbidden];
    assert_run_holds(job, &wrong.run, bad.state, name);
    let last = Shape::of_heap(wrong.run.last());
    assert!(embeds_somehow(&bad.shape, &last), "{name}");
}

/// From the empty heap at the start, by enabled steps, to a state.
pub fn assert_run_holds(job: &Job, run: &Run, last: u64, name: &str) {
    let mut state = job.start;
    let mut heap = Heap::empty(job.variables as usize);
    assert_eq!(run.heaps.len(), run.transitions.len() + 1, "{name}");
    assert_eq!(run.heaps[0], heap, "{name}");
    for (&number, after) in run.transitions.iter().zip(&run.heaps[1..]) {
        let transition = &job.transitions[number];
        assert_eq!(transition.from, state, "{name}");
        let choice = choice(&heap, after, transition.operation);
        heap = heap
            .after(transition.operation, choice)
            .expect("the step is enabled");
        assert_eq!(heap, *after, "{name}");
        state = transition.to;
    }
    assert_eq!(last, state, "{name}");
}

/// What a step left open: the fresh cell that new took, or the value that was written.
fn choice(before: &Heap, after: &Heap, operation: Operation) -> usize {
    let fresh = || {
        let mut cells = after.links.keys();
        cells.find(|cell| !before.links.contains_key(cell)).copied()
    };
    let written = || match before.place(operation.a) {
        Place::Cell(cell) => after.values.get(&cell).copied(),
        _ => None,
    };
    let choice = match operation.kind {
        NEW => fresh(),
        LARGER | SMALLER | READ => written(),
        _ => Some(usize::MAX),
    };
    choice.expect("such a step has a choice")
}

/// From a forbidden shape by predecessors to one at the start that the empty heap satisfies.
pub fn assert_chain_holds(job: &Job, chain: &Chain, name: &str) {
    let shape = |link: &Link| -> Shape { link.located.shape.to_reference(job.variables as usize) };
    let state = |link: &Link| u64::from(link.located.state);

    let first = &chain.links[0];
    let first = Located {
        state: state(first),
        shape: shape(first),
    };
    let is_first = |bad: &Located| {
        let facts = closed(&bad.shape.facts);
        let shape = bad.shape.clone().with_facts(facts);
        first == Located { shape, ..*bad }
    };
    assert!(job.forbidden.iter().any(is_first), "{name}");

    for pair in chain.links.windows(2) {
        let (after, before) = (&pair[0], &pair[1]);
        let transition = &job.transitions[after.transition.unwrap()];
        assert_eq!(
            (transition.from, transition.to),
            (state(before), state(after))
        );
        let all = predecessors(&shape(after), transition.operation);
        assert!(all.contains(&shape(before)), "{name}");
    }

    let last = &chain.links[chain.links.len() - 1];
    assert_eq!(state(last), job.start, "{name}");
    assert!(
        last.transition.is_none() && empty_heap_satisfies(&shape(last)),
        "{name}"
    );
}
