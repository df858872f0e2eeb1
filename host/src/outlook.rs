//! What looking forward shows of a routine, and what of it a desk may not mean.

use crate::reference::heap::Place;
use crate::reference::operation::{ASSIGN, LOAD, NEW};
use crate::routine::{Forbids, Origin, Routine};
use crate::search::flat_heap::Blocked;
use crate::search::look::{Look, Stop};
use crate::search::run::{Bound, Run, WrongRun};

/// What the first heaps that runs reach show.
pub struct Outlook {
    /// The marks and the states where something is forbidden that no run was found to reach.
    pub unreached: Vec<u64>,
    /// Where runs stop since a line can't be carried out.
    pub stops: Vec<Stop>,
    /// A run to each mark, and to each state where more than steps is forbidden.
    pub arrivals: Vec<(u64, Run)>,
    /// The heaps that were looked at.
    pub bound: Bound,
}

/// One thing that a desk may not mean.
pub struct Warning<'a> {
    /// In few words.
    pub what: String,
    /// What follows from it.
    pub meaning: String,
    /// The run that shows it.
    pub run: Option<&'a Run>,
}

impl Outlook {
    /// Where a run is wrong, that it stops there too is no news.
    pub fn of(routine: &Routine, look: &Look, wrong: Option<&WrongRun>) -> Outlook {
        let job = &routine.job;
        let is_forbidden = |state: u64| job.forbidden.iter().any(|bad| bad.state == state);
        let is_told = |state: u64| {
            let mut bads = job.forbidden.iter().zip(&routine.origins);
            let is_more = |origin: &Origin| origin.forbids() != Forbids::Steps;
            routine.mark(state).is_some()
                || bads.any(|(bad, origin)| bad.state == state && is_more(origin))
        };
        let is_met =
            |state: u64| wrong.is_some_and(|wrong| job.forbidden[wrong.forbidden].state == state);
        let mut stops = look.stops();
        stops.retain(|stop| !is_met(job.transitions[stop.transition].from));
        let mut outlook = Outlook {
            unreached: Vec::new(),
            stops,
            arrivals: Vec::new(),
            bound: look.bound(),
        };
        for state in (0..job.states).filter(|&state| is_told(state) || is_forbidden(state)) {
            match look.run_to(state) {
                None => outlook.unreached.push(state),
                Some(run) if is_told(state) => outlook.arrivals.push((state, run)),
                Some(_) => {}
            }
        }
        outlook
    }

    pub fn warns(&self) -> bool {
        !(self.unreached.is_empty() && self.stops.is_empty())
    }

    /// What to warn of.
    pub fn warnings<'a>(&'a self, routine: &Routine) -> Vec<Warning<'a>> {
        let stops = self.stops.iter().map(|stop| self.of_stop(routine, stop));
        stops.chain(self.of_unreached(routine)).collect()
    }

    fn of_stop<'a>(&self, routine: &Routine, stop: &'a Stop) -> Warning<'a> {
        let transition = &routine.job.transitions[stop.transition];
        let state = &routine.states[transition.from as usize];
        let line = match routine.statement(transition.from) {
            Some(statement) => statement.to_string(),
            None => routine.operation(stop.transition),
        };
        let why = reason(routine, stop);
        Warning {
            what: format!("a run stops at {state}, `{line}`: {why}"),
            meaning: format!(
                "The line can't be carried out, and by the rules the run ends there. The verdict \
                 says nothing of what the controller does then. Such runs were looked for among \
                 {}.",
                self.bound
            ),
            run: Some(&stop.run),
        }
    }

    fn of_unreached(&self, routine: &Routine) -> Option<Warning<'static>> {
        let places = self.unreached.iter().map(|&state| routine.place(state));
        let places: Vec<String> = places.collect();
        (!places.is_empty()).then(|| Warning {
            what: format!("no run was found that reaches {}", places.join(", ")),
            meaning: format!(
                "If there is none, what is forbidden there says nothing of the routine. Runs were \
                 looked for among {}.",
                self.bound
            ),
            run: None,
        })
    }
}

/// Why a run stops.
fn reason(routine: &Routine, stop: &Stop) -> String {
    match stop.blocked {
        Blocked::Fails => unreachable!("where a test fails, nothing is to be warned of"),
        Blocked::Link(variable) => {
            format!("the link of {}'s block dangles", routine.operand(variable))
        }
        Blocked::Value(variable) => format!("{}'s block has no value", routine.operand(variable)),
        Blocked::Variable(variable) => {
            let name = routine.operand(variable);
            let is_null = stop.run.last().place(variable) == Place::Null;
            let sets = |&number: &usize| {
                let operation = routine.job.transitions[number].operation;
                matches!(operation.kind, NEW | ASSIGN | LOAD) && operation.a == variable
            };
            match is_null {
                true => format!("{name} is null"),
                false if stop.run.transitions.iter().any(sets) => format!("{name} dangles"),
                false => format!("{name} was never set"),
            }
        }
    }
}
