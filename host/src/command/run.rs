//! `vorruda run`: a run that reaches a mark, drawn.

use super::progress;
use super::{Answer, Choice, Status, Subcommand};
use crate::corpus;
use crate::draw;
use crate::routine::Routine;
use crate::search::run::{Bound, Run};
use crate::search::{far_look, first_look};
use crate::text::{counted, nearest};

pub const RUN: Subcommand = Subcommand {
    name: "run",
    operands: "LISTING",
    count: 1..=1,
    options: &[Choice {
        name: "--to",
        value: Some("MARK"),
        is_required: true,
        summary: "the number of a mark; or a line, as `line 7`, ahead of which the run ends; or a state, \
where the routine is of transitions",
    }],
    summary: "draws a run that reaches a mark",
    description: "The run is drawn step by step, with the heap after each. Of several runs it is one with \
several cells. Where none is found, it is told how many heaps were looked at, and the exit status is 1.

  vorruda run my.listing --to 0",
    run: |arguments| {
        let name = &arguments.operands[0];
        let routine = corpus::find(name)?.routine;
        let mark = arguments.value("--to").expect("it is required");
        let state = state_of(&routine, mark).map_err(|what| format!("{name}: {what}"))?;
        let place = routine.place(state);
        let (found, bound) = run_to(&routine, state);
        Ok(match found {
            Some(run) => Answer::done(drawn(&routine, &place, &run)),
            None => {
                let text = format!("No run was found that reaches {place}, among {bound}.\n");
                Answer::new(text, Status::Refused)
            }
        })
    },
};

/// A run to a state, looked for among few heaps and then among many.
fn run_to(routine: &Routine, state: u64) -> (Option<Run>, Bound) {
    progress::show("looking for a run");
    let near = first_look(&routine.job);
    let found = match near.run_to(state) {
        Some(run) => (Some(run), near.bound()),
        None => {
            let far = far_look(&routine.job);
            (far.run_to(state), far.bound())
        }
    };
    progress::clear();
    found
}

fn drawn(routine: &Routine, place: &str, run: &Run) -> String {
    let steps = counted(run.transitions.len(), "step");
    let key = draw::key_of_run(run);
    let run = draw::run(run, routine);
    format!("A run of {steps} reaches {place} ({key}).\n\n{run}")
}

/// The state of a mark or a line, or the one of that name.
fn state_of(routine: &Routine, mark: &str) -> Result<u64, String> {
    let states = || 0..routine.job.states;
    let is_meant = |state: &u64| {
        let of_mark = routine.mark(*state);
        of_mark == Some(mark)
            || of_mark == Some(&format!("mark {mark}"))
            || routine.states[*state as usize] == mark
    };
    states().find(is_meant).ok_or_else(|| {
        let marks: Vec<&str> = states().filter_map(|state| routine.mark(state)).collect();
        let near = nearest(mark, routine.states.iter().map(String::as_str));
        let known = match (&marks[..], &near[..]) {
            ([], []) => "a state of the routine".to_string(),
            ([], near) => near.join(", "),
            (marks, _) => marks.join(", "),
        };
        format!("no `{mark}` to run to; expected {known}")
    })
}
