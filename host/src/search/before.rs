//! What has to be covered.

use super::shape::{Located, Shape};
use crate::baseline::values::predecessor::each_predecessor;
use crate::reference::job::Job;

/// The forbidden shapes of a job, in its order.
pub fn forbidden(job: &Job) -> Vec<Located> {
    let located = job.forbidden.iter().map(|bad| Located {
        state: bad.state as u8,
        shape: Shape::of_reference(&bad.shape),
    });
    located.collect()
}

/// Visits what has to be covered for a member: its predecessors, with the number of the transition.
pub fn each_before<E>(
    job: &Job,
    member: &Located,
    mut visit: impl FnMut(usize, &Located) -> Result<(), E>,
) -> Result<(), E> {
    let Shape { places, facts } = &member.shape;
    if facts.clash() {
        return Ok(());
    }
    for (number, transition) in job.transitions.iter().enumerate() {
        if transition.to == u64::from(member.state) {
            let state = transition.from as u8;
            each_predecessor(
                places,
                facts,
                transition.operation,
                &mut |&places, &facts| {
                    let shape = Shape { places, facts };
                    visit(number, &Located { state, shape })
                },
            )?;
        }
    }
    Ok(())
}
