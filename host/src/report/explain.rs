//! What the steps of a run do, in plain words.

use crate::reference::heap::{Heap, Place};
use crate::reference::job::Transition;
use crate::reference::operation::Operation;
use crate::reference::operation::{ASSIGN, DELETE, DIFFERENT, EQUAL, LOAD, NEW, STORE};
use crate::reference::operation::{BELOW_VALUE, COPY, EQUAL_VALUE, LARGER, READ, SMALLER};
use crate::routine::{Routine, NULL_IS_NULL};

/// What a step has done, and which way it went.
pub fn step(routine: &Routine, number: usize, after: &Heap) -> String {
    let transition = &routine.job.transitions[number];
    let Some(way) = way(routine, transition) else {
        return operation(routine, transition.operation, after);
    };
    match transition.operation {
        NULL_IS_NULL => way,
        test => format!("{}: {way}", operation(routine, test, after)),
    }
}

/// Whether a step chooses its way: a test, or where the routine may do as it likes.
pub fn is_choice(routine: &Routine, number: usize) -> bool {
    let Transition {
        from, operation, ..
    } = routine.job.transitions[number];
    let is_test = [EQUAL, DIFFERENT, EQUAL_VALUE, BELOW_VALUE].contains(&operation.kind);
    match routine.statement(from).map(head) {
        Some("end" | "mark") => false,
        _ => is_test,
    }
}

/// The first word of a line.
fn head(statement: &str) -> &str {
    statement.split(' ').next().unwrap_or_default()
}

/// Which way a line goes that enters or leaves something; nothing for all others.
fn way(routine: &Routine, transition: &Transition) -> Option<String> {
    let Transition { from, to, .. } = *transition;
    let state = |state: u64| &routine.states[state as usize];
    let Some(statement) = routine.statement(from) else {
        let is_skip = transition.operation == NULL_IS_NULL;
        return is_skip.then(|| format!("leaves {}, enters {}", state(from), state(to)));
    };
    let way = match (head(statement), to == from + 1) {
        ("while", true) => "enters the loop",
        ("while", false) => "leaves the loop",
        ("if", true) => "enters the branch",
        ("if", false) => "skips the branch",
        ("end", true) => "leaves the branch",
        ("end", false) => return Some(format!("goes back to {}", state(to))),
        ("mark", _) => "passes the mark",
        _ => return None,
    };
    Some(way.to_string())
}

/// What an operation has done, with the values it compared or wrote.
fn operation(routine: &Routine, operation: Operation, after: &Heap) -> String {
    let words = operation_words(routine, operation);
    match values(operation, after) {
        Some(values) => format!("{words}: {values}"),
        None => words,
    }
}

/// What an operation does.
fn operation_words(routine: &Routine, operation: Operation) -> String {
    let Operation { kind, a, b } = operation;
    let (x, y) = (routine.operand(a), routine.operand(b));
    match (kind, a, b) {
        (EQUAL, _, 0) => format!("{x} is null"),
        (EQUAL, ..) => format!("{x} and {y} stand at the same place"),
        (DIFFERENT, _, 0) => format!("{x} is not null"),
        (DIFFERENT, ..) => format!("{x} and {y} stand at different places"),
        (ASSIGN, _, 0) => format!("{x} is set to null"),
        (ASSIGN, ..) => format!("{x} goes where {y} stands"),
        (LOAD, ..) => format!("{x} goes where the link of {y}'s block leads"),
        (STORE, _, 0) => format!("the link of {x}'s block is set to null: the list ends here"),
        (STORE, ..) => format!("the link of {x}'s block is set to where {y} stands"),
        (NEW, ..) => format!("a new block, with {x} at it; its link is not set yet"),
        (DELETE, ..) => format!("{x}'s block is deleted; whatever led to it now dangles"),
        (EQUAL_VALUE, ..) if a == b => format!("{x}'s block has a value"),
        (EQUAL_VALUE, ..) => format!("{x}'s block has the same value as {y}'s"),
        (BELOW_VALUE, ..) => format!("{x}'s block has a smaller value than {y}'s"),
        (COPY, ..) if a == b => format!("{x}'s block keeps its value"),
        (COPY, ..) => format!("{x}'s block gets the value of {y}'s"),
        (LARGER, ..) if a == b => format!("{x}'s block gets a larger value than it had"),
        (LARGER, ..) => format!("{x}'s block gets a larger value than {y}'s"),
        (SMALLER, ..) if a == b => format!("{x}'s block gets a smaller value than it had"),
        (SMALLER, ..) => format!("{x}'s block gets a smaller value than {y}'s"),
        (READ, ..) => format!("a value is read into {x}'s block"),
        _ => unreachable!("an operation has a kind of the table"),
    }
}

/// The values that an operation compares or has written, as far as the heap after it has them.
fn values(operation: Operation, after: &Heap) -> Option<String> {
    let value = |operand: usize| match after.place(operand) {
        Place::Cell(cell) => after.values.get(&cell),
        _ => None,
    };
    let Operation { kind, a, b } = operation;
    match kind {
        BELOW_VALUE => Some(format!("{} < {}", value(a)?, value(b)?)),
        EQUAL_VALUE | COPY | LARGER | SMALLER | READ => value(a).map(usize::to_string),
        _ => None,
    }
}

#[cfg(test)]
mod tests {
    use super::*;
    use crate::corpus;

    /// x at a block with value 5, y at one with 7, z at one without.
    fn assert_said(kind: u64, a: usize, b: usize, expected: &str) {
        let mut routine = corpus::find("reverse").unwrap().routine;
        routine.variables = ["x", "y", "z"].map(str::to_string).to_vec();
        let after = Heap {
            variables: [0, 1, 2].map(Place::Cell).to_vec(),
            links: [0, 1, 2].map(|cell| (cell, Place::Null)).into(),
            values: [(0, 5), (1, 7)].into(),
        };
        let said = operation(&routine, Operation { kind, a, b }, &after);
        assert_eq!(said, expected);
    }

    #[test]
    fn values_are_told() {
        assert_said(EQUAL_VALUE, 1, 1, "x's block has a value: 5");
        assert_said(EQUAL_VALUE, 2, 1, "y's block has the same value as x's: 7");
        assert_said(
            BELOW_VALUE,
            1,
            2,
            "x's block has a smaller value than y's: 5 < 7",
        );
        assert_said(COPY, 2, 1, "y's block gets the value of x's: 7");
        assert_said(COPY, 2, 2, "y's block keeps its value: 7");
        assert_said(LARGER, 2, 1, "y's block gets a larger value than x's: 7");
        assert_said(LARGER, 1, 1, "x's block gets a larger value than it had: 5");
        assert_said(SMALLER, 1, 2, "x's block gets a smaller value than y's: 5");
        assert_said(
            SMALLER,
            2,
            2,
            "y's block gets a smaller value than it had: 7",
        );
        assert_said(READ, 2, 0, "a value is read into y's block: 7");
    }

    /// What every step of a listing or of transitions says, whatever the heap.
    fn all_said(name: &str) -> Vec<String> {
        let routine = corpus::find(name).unwrap().routine;
        let empty = Heap::empty(routine.variables.len());
        let said = |number: usize| {
            let from = &routine.states[routine.job.transitions[number].from as usize];
            let is_choice = if is_choice(&routine, number) {
                " ?"
            } else {
                ""
            };
            format!("{from} {}{is_choice}", step(&routine, number, &empty))
        };
        (0..routine.job.transitions.len()).map(said).collect()
    }

    #[test]
    fn which_way_a_step_goes() {
        let listing = all_said("append");
        for said in [
            "line 3 x is set to null",
            "line 4 enters the loop ?",
            "line 4 leaves the loop ?",
            "line 8 goes back to line 4",
            "line 12 l is null: enters the branch ?",
            "line 12 l is not null: skips the branch ?",
            "line 14 leaves the branch",
            "line 17 t is not null: enters the loop ?",
            "line 17 t is null: leaves the loop ?",
            "line 23 passes the mark",
        ] {
            assert!(listing.iter().any(|one| one == said), "{said}: {listing:?}");
        }
        let transitions = all_said("queue");
        for said in [
            "loop leaves loop, enters loop.1 ?",
            "loop leaves loop, enters end ?",
            "put.2 x is null ?",
            "put.3 x goes where t stands",
        ] {
            let mut all = transitions.iter();
            assert!(all.any(|one| one == said), "{said}: {transitions:?}");
        }
    }

    #[test]
    fn where_there_is_no_value_none_is_told() {
        assert_said(READ, 3, 0, "a value is read into z's block");
        assert_said(BELOW_VALUE, 1, 3, "x's block has a smaller value than z's");
        assert_said(
            STORE,
            1,
            2,
            "the link of x's block is set to where y stands",
        );
    }
}
