//! Why there is no certificate: predecessors from a forbidden shape back to the empty heap.

use std::convert::Infallible;

use super::before::{each_before, forbidden};
use super::closure::Obstruction;
use super::explore::{Exploration, Step};
use super::images::find_images;
use super::shape::Located;
use crate::reference::job::Job;

/// One shape of a chain.
pub struct Link {
    pub located: Located,
    /// The number of the transition that leads from the next link to this one; nothing for the
    /// last.
    pub transition: Option<usize>,
}

/// Each link is a predecessor of the one before it. The first is forbidden, the last is at the
/// start state and satisfied by the empty heap.
pub struct Chain {
    pub links: Vec<Link>,
    /// The number of the forbidden shape.
    pub forbidden: usize,
}

/// The chain from a forbidden shape that is obstructed.
pub fn chain(job: &Job, reached: &Exploration, obstruction: &Obstruction) -> Chain {
    let mut links = Vec::new();
    let mut bads = forbidden(job).into_iter();
    let forbidden = bads.position(|bad| bad == obstruction.needed);
    let forbidden = forbidden.expect("what is obstructed is forbidden");
    let mut located = obstruction.needed;
    let mut heap = &reached.reached[obstruction.heap];
    loop {
        match heap.step {
            Step::Part(whole) => heap = &reached.reached[whole],
            Step::Transition(before, transition) => {
                links.push(Link {
                    located,
                    transition: Some(transition),
                });
                heap = &reached.reached[before];
                located = satisfied_before(job, &located, transition, &heap.located);
            }
            Step::Start => {
                links.push(Link {
                    located,
                    transition: None,
                });
                return Chain { links, forbidden };
            }
        }
    }
}

/// The predecessor under a transition that the heap before satisfies.
fn satisfied_before(job: &Job, after: &Located, transition: usize, heap: &Located) -> Located {
    let mut satisfied = None;
    let Ok(()) = each_before(job, after, |number, before| -> Result<(), Infallible> {
        let fits = number == transition && find_images(&before.shape, &heap.shape).is_some();
        if satisfied.is_none() && fits {
            satisfied = Some(*before);
        }
        Ok(())
    });
    satisfied
        .expect("a heap before a step satisfies a predecessor of what the heap after satisfies")
}
