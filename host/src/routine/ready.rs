//! The ready sets that the proved library makes: it writes a job again with the shapes after its
//! own, and they are read from there.

use crate::library;
use crate::reference::job::{Job, Located, Transition};
use crate::reference::shape::Shape;
use crate::reference::version::Version;

/// No ready set has more bytes than a job with it in this room.
const ROOM: usize = 1_024;

/// The state that stands for the one where the set is forbidden.
const STATE: u64 = 0;

/// `no list: x` - # isn't met by following links from x.
pub fn not_list(variables: usize, x: usize) -> Vec<Shape> {
    let job = job(variables, &[]);
    shapes(&job, |bytes, out| {
        library::forbid_not_list(&job, x as u32, STATE as u32, bytes, out)
    })
}

/// `lost block: x` - some cell isn't met by following links from x.
pub fn lost_block(variables: usize, x: usize) -> Vec<Shape> {
    let job = job(variables, &[]);
    shapes(&job, |bytes, out| {
        library::forbid_lost_block(&job, x as u32, STATE as u32, bytes, out)
    })
}

/// The two shapes of a transition that follows or sets a variable's link: that variable at #, and
/// at *. None for another transition.
pub fn bad_steps(variables: usize, transition: Transition) -> Vec<Located> {
    let job = job(variables, &[transition]);
    added(&job, |bytes, out| {
        library::forbid_bad_steps(&job, bytes, out)
    })
}

/// A job with these transitions, of the version that has all kinds, and one forbidden shape, since
/// there has to be one.
fn job(variables: usize, transitions: &[Transition]) -> Vec<u8> {
    let job = Job {
        version: Version::Two,
        variables: variables as u64,
        states: 64,
        start: 0,
        transitions: transitions.to_vec(),
        forbidden: vec![Located {
            state: STATE,
            shape: Shape::of_codes(&vec![0; variables], &[]),
        }],
    };
    job.bytes()
}

fn shapes(job: &[u8], call: impl Fn(&mut [u8], &mut [u64]) -> u32) -> Vec<Shape> {
    let added = added(job, call);
    added.into_iter().map(|located| located.shape).collect()
}

/// What a call forbids after the job's own shape.
fn added(job: &[u8], call: impl Fn(&mut [u8], &mut [u64]) -> u32) -> Vec<Located> {
    let mut bytes = [0; ROOM];
    let mut filled = [0];
    let refused = call(&mut bytes, &mut filled);
    assert_eq!(refused, 0, "the job {job:?} is within all limits");
    let mut written = Job::read(&bytes[..filled[0] as usize]).expect("what is written is a job");
    written.forbidden.split_off(1)
}
