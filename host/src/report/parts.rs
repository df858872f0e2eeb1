//! Which steps of a run a page shows, and which it folds: those that build the list, and those that
//! change nothing.

use std::ops::Range;

use crate::reference::operation::{Operation, DELETE, DIFFERENT, EQUAL, LOAD, NEW};
use crate::routine::{Routine, NULL_IS_NULL};
use crate::search::run::Run;

/// A part of a run; steps are numbered from 0.
#[derive(Clone, Debug, PartialEq, Eq)]
pub enum Part {
    /// The steps that build the list, folded.
    Build(Range<usize>),
    /// Steps that change nothing, folded.
    Same(Range<usize>),
    /// A step that is shown.
    Step(usize),
}

/// The parts of a run. The last step of a wrong one is shown whatever it does.
pub fn parts(routine: &Routine, run: &Run, is_wrong: bool) -> Vec<Part> {
    let steps = run.transitions.len();
    let is_same = |step: usize| changes_nothing(run, step) && !(is_wrong && step + 1 == steps);
    let build = build_phase(routine, run);
    let mut parts = Vec::new();
    if build > 0 {
        parts.push(Part::Build(0..build));
    }
    for step in build..steps {
        match parts.last_mut() {
            Some(Part::Same(same)) if is_same(step) => same.end = step + 1,
            _ if is_same(step) => parts.push(Part::Same(step..step + 1)),
            _ => parts.push(Part::Step(step)),
        }
    }
    parts
}

/// Whether the heap after a step is the one before.
pub fn changes_nothing(run: &Run, step: usize) -> bool {
    run.heaps[step] == run.heaps[step + 1]
}

/// How many steps at the beginning of a run build the list: up to the last one of a loop that builds,
/// unless another loop, a delete or the following of a link comes before. Where nothing is done to what
/// was built, the building is the routine, and there is no such phase.
pub fn build_phase(routine: &Routine, run: &Run) -> usize {
    let loops = Loops::of(routine);
    let mut built = 0;
    for (step, &number) in run.transitions.iter().enumerate() {
        let transition = &routine.job.transitions[number];
        match loops.kind(transition.from) {
            Some(true) => built = step + 1,
            Some(false) => break,
            None if [LOAD, DELETE].contains(&transition.operation.kind) => break,
            None => {}
        }
    }
    let mut behind = built..run.transitions.len();
    match behind.all(|step| changes_nothing(run, step)) {
        true => 0,
        false => built,
    }
}

/// The loops of a routine: states that lead to each other.
struct Loops<'a> {
    routine: &'a Routine,
    /// For each state, the set of those that it leads to, as bits.
    reached: Vec<u64>,
}

impl Loops<'_> {
    fn of(routine: &Routine) -> Loops<'_> {
        let count = routine.states.len();
        let mut reached = vec![0u64; count];
        for transition in &routine.job.transitions {
            reached[transition.from as usize] |= 1 << transition.to;
        }
        for through in 0..count {
            let on = reached[through];
            for set in &mut reached {
                if *set >> through & 1 == 1 {
                    *set |= on;
                }
            }
        }
        Loops { routine, reached }
    }

    fn leads(&self, from: u64, to: u64) -> bool {
        self.reached[from as usize] >> to & 1 == 1
    }

    /// Whether the loop that a state is in builds a list: it makes blocks and deletes none, and it
    /// doesn't walk, which takes both a test and the following of a link. Nothing outside of loops.
    fn kind(&self, state: u64) -> Option<bool> {
        let is_inside = |other: u64| self.leads(state, other) && self.leads(other, state);
        let transitions = self.routine.job.transitions.iter();
        let inside =
            transitions.filter(|transition| is_inside(transition.from) && is_inside(transition.to));
        let operations: Vec<Operation> = inside.map(|transition| transition.operation).collect();
        let has = |kinds: &[u64]| {
            let mut real = operations.iter().filter(|&&one| one != NULL_IS_NULL);
            real.any(|operation| kinds.contains(&operation.kind))
        };
        let walks = has(&[EQUAL, DIFFERENT]) && has(&[LOAD]);
        (!operations.is_empty()).then(|| has(&[NEW]) && !has(&[DELETE]) && !walks)
    }
}

#[cfg(test)]
mod tests {
    use super::*;
    use crate::corpus;
    use crate::judge::{judge, Ending};

    /// The routine of this name, and the run that reaches its last mark, or that is wrong.
    fn run_of(name: &str) -> (Routine, Run) {
        let routine = corpus::find(name).unwrap().routine;
        let judged = judge(&routine);
        let run = match judged.ending {
            Ending::Wrong(wrong) => wrong.run,
            _ => judged.outlook.arrivals.last().unwrap().1.clone(),
        };
        (routine, run)
    }

    /// The state at which the building ends.
    fn built(name: &str) -> Option<String> {
        let (routine, run) = run_of(name);
        let last = build_phase(&routine, &run).checked_sub(1)?;
        let to = routine.job.transitions[run.transitions[last]].to;
        Some(routine.states[to as usize].clone())
    }

    #[test]
    fn where_the_building_ends() {
        for (name, state) in [
            ("reverse", "line 9"),
            ("swap_lists", "line 15"),
            ("ring_open", "line 11"),
            ("append_many", "line 10"),
            ("merge_patterns", "merge"),
            ("wrong_bubble_one_pass", "pass"),
        ] {
            assert_eq!(built(name).as_deref(), Some(state), "{name}");
        }
        // What walks, takes away or does nothing else isn't folded.
        for name in ["queue", "build", "ring_build", "wrong_queue_empty"] {
            assert_eq!(built(name), None, "{name}");
        }
    }

    #[test]
    fn what_changes_nothing_is_folded() {
        let (routine, run) = run_of("wrong_reverse_ring");
        let parts_of = |is_wrong| parts(&routine, &run, is_wrong);
        let ahead = [
            Part::Build(0..7),
            Part::Step(7),
            Part::Same(8..9),
            Part::Step(9),
            Part::Step(10),
            Part::Step(11),
            Part::Step(12),
        ];
        let (wrong, other) = (parts_of(true), parts_of(false));
        assert_eq!(wrong[..7], ahead);
        assert_eq!(wrong[7..], [Part::Same(13..14), Part::Step(14)]);
        assert_eq!(other[..7], ahead);
        assert_eq!(other[7..], [Part::Same(13..15)]);
    }

    /// Every step of every run is in one part, in its turn.
    #[test]
    fn no_step_is_left_out() {
        for entry in corpus::read().unwrap() {
            let judged = judge(&entry.routine);
            for (_, run) in &judged.outlook.arrivals {
                let mut next = 0;
                for part in parts(&entry.routine, run, false) {
                    let steps = match part {
                        Part::Build(steps) | Part::Same(steps) => steps,
                        Part::Step(step) => step..step + 1,
                    };
                    assert_eq!(steps.start, next, "{}", entry.name);
                    next = steps.end;
                }
                assert_eq!(next, run.transitions.len(), "{}", entry.name);
            }
        }
    }
}
