//! The usual forbidden shapes, ready cut, and the job written again with them after its own.

use super::checker::check_length;
use super::job::{Job, Located, MOST_FORBIDDEN};
use super::operation::{LOAD, STORE};
use super::refused::{in_room, Refused};
use super::shape::Shape;

/// Codes of places.
const NULL: u64 = 1;
const DANGLING: u64 = 2;
const X_CELL: u64 = 3;
const NEXT_CELL: u64 = 4;

/// Where x stands, and the links of the cells; x's cell is 0.
type Row = (u64, &'static [u64]);

/// "x at *; x's cell linked to *; x's cell linked to itself; x's cell linked to a cell that links to
/// itself".
const NOT_LIST: [Row; 4] = [
    (DANGLING, &[]),
    (X_CELL, &[DANGLING]),
    (X_CELL, &[X_CELL]),
    (X_CELL, &[NEXT_CELL, NEXT_CELL]),
];

/// "beside x at #, and beside x's cell linked to #".
const LIST: [Row; 2] = [(NULL, &[]), (X_CELL, &[NULL])];

/// A set that is asked for.
#[derive(Clone, Copy, Debug, PartialEq, Eq)]
pub enum Set {
    NotList { variable: u32, state: u32 },
    LostBlock { variable: u32, state: u32 },
    BadSteps,
}

/// The bytes of the job with the set after its own, where so many bytes have room.
pub fn forbid(job: &[u8], set: Set, room: usize) -> Result<Vec<u8>, Refused> {
    let mut job = check_length(job, 1)
        .and_then(|()| Job::read(job))
        .map_err(|refusal| Refused {
            number: refusal.number,
            value: refusal.place,
        })?;
    if let Set::NotList { variable, state } | Set::LostBlock { variable, state } = set {
        let inside = 1..=job.variables;
        if !inside.contains(&variable.into()) || u64::from(state) >= job.states {
            return Err(at_place_0(16));
        }
    }
    let shapes = shapes(&job, set);
    job.forbidden.extend(shapes);
    if job.forbidden.len() as u64 > MOST_FORBIDDEN {
        return Err(at_place_0(31));
    }
    in_room(job.bytes(), room)
}

fn at_place_0(number: u32) -> Refused {
    Refused { number, value: 0 }
}

/// The shapes of the set, in their order.
fn shapes(job: &Job, set: Set) -> Vec<Located> {
    match set {
        Set::NotList { variable, state } => NOT_LIST
            .iter()
            .map(|row| located(job, state.into(), variable as usize, *row, &[]))
            .collect(),
        Set::LostBlock { variable, state } => NOT_LIST
            .iter()
            .chain(&LIST)
            .map(|row| located(job, state.into(), variable as usize, *row, &[0]))
            .collect(),
        Set::BadSteps => bad_steps(job),
    }
}

/// A shape with one placed variable, and so many loose cells after its others.
fn located(job: &Job, state: u64, x: usize, (place, links): Row, loose: &[u64]) -> Located {
    let mut places = vec![0; job.variables as usize];
    places[x - 1] = place;
    Located {
        state,
        shape: Shape::of_codes(&places, &[links, loose].concat()),
    }
}

/// "for each kind 4 its b, for each kind 5 its a, at # and then at *, at the from state, transition
/// by transition".
fn bad_steps(job: &Job) -> Vec<Located> {
    let mut all = Vec::new();
    for transition in &job.transitions {
        let through = match transition.operation.kind {
            LOAD => transition.operation.b,
            STORE => transition.operation.a,
            _ => continue,
        };
        for place in [NULL, DANGLING] {
            all.push(located(job, transition.from, through, (place, &[]), &[]));
        }
    }
    all
}
