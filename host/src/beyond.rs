//! What to say where there is no certificate and no run was found that meets what is forbidden.

use crate::reference::heap::Place;
use crate::reference::operation::DELETE;
use crate::routine::Routine;
use crate::search::chain::Chain;
use crate::search::run::Bound;
use crate::search::Stuck;

/// What was found, in sentences: which line it is about, how far was looked, and what can be done.
pub struct Beyond {
    pub found: String,
    pub looked: String,
    pub next: String,
}

impl Beyond {
    /// `looked` is of all runs, `along` of those by the transitions of the chain.
    pub fn of(routine: &Routine, chain: &Chain, looked: &Bound, along: &Bound) -> Beyond {
        let place = routine.place(routine.job.forbidden[chain.forbidden].state);
        let origin = &routine.origins[chain.forbidden];
        Beyond {
            found: format!(
                "No certificate exists while {origin} at {place}: by the rules for shapes that \
                 goes back to the empty heap."
            ),
            looked: format!(
                "No run was found that meets it, among {looked}; and by the lines of the chain \
                 alone, among {along}. A run with more cells may still meet it."
            ),
            next: format!("{} {ANYHOW}", next(routine, chain)),
        }
    }
}

/// What may help where the search came to a limit.
pub const AT_A_LIMIT: &str = "What to do: forbid the lines in two routines that are otherwise the \
                              same, or spare a variable or a state (docs/CORPUS.md, Limits).";

/// The same, of one line where it alone comes to the limit.
pub fn at_a_limit(routine: &Routine, stuck: &Stuck) -> String {
    match stuck.alone {
        None => AT_A_LIMIT.to_string(),
        Some(number) => format!(
            "One line alone comes to this limit: {}. What to do: forbid less, or spare a variable or a \
             state (docs/CORPUS.md, Limits).",
            routine.origins[number]
        ),
    }
}

const ANYHOW: &str = "Or leave this line out, and see whether all else is certified.";

/// What may help, by what the rules forget on the way.
fn next(routine: &Routine, chain: &Chain) -> &'static str {
    let job = &routine.job;
    let mut transitions = chain.links.iter().filter_map(|link| link.transition);
    let deletes = transitions.any(|number| job.transitions[number].operation.kind == DELETE);
    let links = &job.forbidden[chain.forbidden].shape.links;
    match deletes && links.contains(&Some(Place::Dangling)) {
        true => {
            "What to do: going back over a delete forgets which links dangle. Set the links again \
             behind the last delete, or forbid all but links to * (docs/CORPUS.md, Delete and keep \
             a list)."
        }
        false => {
            "What to do: a path of several cells counts as one link, so nothing can rest on how \
             many cells lie between two variables. Follow the chain to the line where it goes as \
             no run does, and move the variables in another order there (docs/CORPUS.md, Counting)."
        }
    }
}
